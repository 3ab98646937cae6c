; Five jobs take 3, 2, 4, 2 and 5 hours. The first three share one machine and the last two another,
; which does one at a time; the second must be done before the third begins, and the first before
; the fifth. When are all done at the earliest? How late may the fourth begin then, and why are they
; not done sooner?
;
; a to e are the hours at which the jobs begin, and all are done at the hour `end`. `(minimum 9)` says
; that 9 hours are the least, and the values are such a schedule. The second answer, `(minimum (- 2))`,
; is of the negative of d: the fourth job begins at hour 2 at the latest. `unsat` says that they
; are not done sooner, and the core why: the first machine alone has work for 9 hours.
(set-option :print-success false)
(set-option :produce-models true)
(set-option :produce-unsat-cores true)
(set-logic QF_LIA)
(declare-const a Int)
(declare-const b Int)
(declare-const c Int)
(declare-const d Int)
(declare-const e Int)
(declare-const end Int)
(define-fun apart ((x Int) (long Int) (y Int) (short Int)) Bool
  (or (<= (+ x long) y) (<= (+ y short) x)))
(assert (and (<= 0 a) (<= 0 b) (<= 0 c) (<= 0 d) (<= 0 e)))
(assert (and (<= (+ a 3) end) (<= (+ b 2) end) (<= (+ c 4) end) (<= (+ d 2) end) (<= (+ e 5) end)))
(assert (! (and (apart a 3 b 2) (apart a 3 c 4) (apart b 2 c 4)) :named first-machine))
(assert (! (apart d 2 e 5) :named second-machine))
(assert (! (<= (+ b 2) c) :named second-then-third))
(assert (! (<= (+ a 3) e) :named first-then-fifth))
(minimize end)
(get-value (a b c d e))
(push 1)
(assert (= end 9))
(minimize (- d))
(pop 1)
(assert (! (< end 9) :named sooner))
(minimize end)
(get-unsat-core)
(exit)
