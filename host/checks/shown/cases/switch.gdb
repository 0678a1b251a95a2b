Dump of assembler code for function chosen:
   0x08049010 <+0>:	fld    QWORD PTR [esp+0x8]
   0x08049014 <+4>:	fld    QWORD PTR [esp+0x10]
   0x08049018 <+8>:	mov    eax,DWORD PTR [esp+0x4]
   0x0804901c <+12>:	fld    st(1)
   0x0804901e <+14>:	fmul   st,st(1)
   0x08049020 <+16>:	cmp    eax,0x5
   0x08049023 <+19>:	ja     0x8049000 <chosen.cold>
   0x08049029 <+25>:	jmp    DWORD PTR [eax*4+0x804a000]
   0x08049030 <+32>:	fmulp  st(2),st
   0x08049032 <+34>:	fxch   st(1)
   0x08049034 <+36>:	jmp    0x8049044 <chosen+52>
   0x08049036 <+38>:	lea    esi,[esi+eiz*1+0x0]
   0x0804903d <+45>:	lea    esi,[esi+0x0]
   0x08049040 <+48>:	fstp   st(2)
   0x08049042 <+50>:	fxch   st(1)
   0x08049044 <+52>:	faddp  st(1),st
   0x08049046 <+54>:	fadd   st,st(0)
   0x08049048 <+56>:	ret
   0x08049049 <+57>:	lea    esi,[esi+eiz*1+0x0]
   0x08049050 <+64>:	fstp   st(0)
   0x08049052 <+66>:	fdivrp st(1),st
   0x08049054 <+68>:	ret
   0x08049055 <+69>:	lea    esi,[esi+0x0]
   0x08049058 <+72>:	fstp   st(1)
   0x0804905a <+74>:	fsubp  st(1),st
   0x0804905c <+76>:	ret
   0x0804905d <+77>:	lea    esi,[esi+0x0]
   0x08049060 <+80>:	fstp   st(1)
   0x08049062 <+82>:	faddp  st(1),st
   0x08049064 <+84>:	ret
   0x08049065 <+85>:	lea    esi,[esi+0x0]
   0x08049068 <+88>:	fstp   st(2)
   0x0804906a <+90>:	fxch   st(1)
   0x0804906c <+92>:	fsubrp st(1),st
   0x0804906e <+94>:	ret
End of assembler dump.
