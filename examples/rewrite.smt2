; Does a compiler's rewrite keep what a program computes?
;
; The program reads a record twice and packs both results:
;     x := read(db, key); y := read(db, key'); out := pack(x, y)
; The rewrite reads once where the keys are equal, and packs the one result twice.
; The functions are unknown, so the rewrite is right only if it is right for all of them.
;
; The first check asks for a case in which the two differ: `unsat`, there is none.
; The second drops the test of the keys: `sat`, and the values say where it goes wrong.
(set-option :print-success false)
(set-option :produce-models true)
(set-logic QF_UF)
(declare-sort Base 0)
(declare-sort Key 0)
(declare-sort Item 0)
(declare-fun read (Base Key) Item)
(declare-fun pack (Item Item) Item)
(declare-const db Base)
(declare-const key Key)
(declare-const other Key)
(define-fun before () Item (pack (read db key) (read db other)))
(define-fun tested () Item (ite (= key other) (pack (read db key) (read db key)) before))
(define-fun untested () Item (pack (read db key) (read db key)))
(push 1)
(assert (distinct before tested))
(check-sat)
(pop 1)
(assert (distinct before untested))
(check-sat)
(get-value ((= key other) (= (read db key) (read db other))))
