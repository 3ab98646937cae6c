; A refutation by hand, for smt_check: two numbers that are at most each other are equal, so a
; function has one value at both.
(set-logic QF_UFLIA)
(declare-const x Int)
(declare-const y Int)
(declare-fun f (Int) Int)
(assert (<= x y))
(assert (<= y x))
(assert (not (= (f x) (f y))))
(check-sat)
(get-proof)
(((x) (y) (f 0) (f 1) (<= 0 1) (<= 1 0) (= 2 3) (not 6))
 ((assert 0 4)
  (assert 1 5)
  (assert 2 7)
  (form 4 (not (t 4)) (le ((1 0) ((- 1) 1)) 0))     ; x - y <= 0
  (form 5 (not (t 5)) (le (((- 1) 0) (1 1)) 0))     ; y - x <= 0
  (link 0 1 2)                                      ; then x = y
  (cong 2 3)                                        ; then f(x) = f(y)
  (form 6 (not (s 2 3)) (t 6))
  (form 7 (not (t 7)) (not (t 6)))
  (res 0 3 (t 4))
  (res 1 4 (t 5))
  (res 9 5 (le ((1 0) ((- 1) 1)) 0))
  (res 10 11 (le (((- 1) 0) (1 1)) 0))
  (res 12 6 (s 0 1))
  (res 13 7 (s 2 3))
  (res 14 8 (t 6))
  (res 2 15 (t 7))))
