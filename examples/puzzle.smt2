; Knights always tell the truth, and knaves always lie. A says "All of us are knaves", B says
; "Exactly one of us is a knight", and C says nothing. Who is what?
;
; Each of a, b and c is true where that person is a knight. The first answer, `sat`, says that the
; two sentences can be; the values say how: A and C are knaves, and B is a knight. The second
; answer, `unsat`, says that there is no other way.
(set-option :print-success false)
(set-option :produce-models true)
(set-logic QF_UF)
(declare-const a Bool)
(declare-const b Bool)
(declare-const c Bool)
(define-fun only ((x Bool) (y Bool) (z Bool)) Bool (and x (not y) (not z)))
(assert (= a (and (not a) (not b) (not c))))
(assert (= b (or (only a b c) (only b a c) (only c a b))))
(check-sat)
(get-value (a b c))
(push 1)
(assert (not (and (not a) b (not c))))
(check-sat)
(pop 1)
(exit)
