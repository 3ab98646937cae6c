; Two truth values. Can p be true and q false? The first answer, `sat`, says so. Then q is asserted
; too, and `unsat` says that it can't be both. Until `:print-success` is off, each command that
; succeeds answers `success`.
(set-logic QF_UF)
(declare-const p Bool)
(declare-const q Bool)
(assert p)
(assert (not q)) ; not both
(check-sat)
(set-option :print-success false)
(assert q)
(check-sat)
(exit)
