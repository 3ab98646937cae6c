; A loop looks for the greatest of the items of an array: m is the greatest of the items below
; place i. Its invariant is that no item below i is greater than m. Does one more turn keep it?
;
; k is any place. The assertions say that the invariant holds at k before the turn, that k is below
; the new i, and that the invariant fails at k after the turn. So `unsat` says that the turn keeps
; the invariant; `sat` would give an array and a place where it doesn't.
(set-option :print-success false)
(set-logic QF_UFLIA)
(declare-fun item (Int) Int)
(declare-const i Int)
(declare-const m Int)
(declare-const k Int)
(define-fun greatest () Int (ite (< m (item i)) (item i) m))
(assert (=> (and (<= 0 k) (< k i)) (<= (item k) m)))
(assert (and (<= 0 k) (< k (+ i 1))))
(assert (not (<= (item k) greatest)))
(check-sat)
(exit)
