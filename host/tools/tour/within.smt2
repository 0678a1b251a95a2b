; The coefficient is an eighth, and sample and average are within half a turn: is the average that is stored ever outside?
(assert (= x52_2_3 #x3e000000))
(define-fun half () (_ FloatingPoint 8 24) ((_ to_fp 8 24) RNE 180.0))
(assert (fp.leq (fp.abs n1) half))
(assert (fp.leq (fp.abs n5) half))
(assert (not (fp.leq (fp.abs n65) half)))
(check-sat)
