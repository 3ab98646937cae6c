; Which features of a product can be built together? Each question is a check under assumptions, over rules that stay.
; Declarations are global, so what a level declares is still there when its rules are gone; names tell of a plan which of its
; points it keeps.
; The answers: the plain product can be built; encrypted search can't, since search needs an index, which is never made of
; secrets; offline use can, without search, and the names tell that it keeps all three points. Maps offline can't, as 100 tiles
; don't fit; without maps 16 units of storage do. Once the level's rules are gone, a thousand tiles do fit: its constant stays.
(set-option :print-success false)
(set-option :produce-models true)
(set-option :produce-assignments true)
(set-option :global-declarations true)
(set-logic QF_LIA)
(declare-const search Bool)
(declare-const index Bool)
(declare-const encrypted Bool)
(declare-const offline Bool)
(declare-const maps Bool)
(declare-const storage Int)
(assert (! (=> search index) :named search-needs-index))
(assert (! (not (and index encrypted)) :named no-index-of-secrets))
(assert (! (=> offline (<= 16 storage 64)) :named offline-is-small))
(assert (=> (not offline) (= storage 0)))
(check-sat-assuming ())
(check-sat-assuming (search encrypted))
(check-sat-assuming (offline (not search) (not index)))
(get-assignment)
(push 1)
(declare-const tiles Int)
(assert (=> maps (<= 100 tiles)))
(assert (<= tiles storage))
(check-sat-assuming (offline maps))
(check-sat-assuming (offline (not maps) (= storage 16)))
(get-value (storage offline))
(pop 1)
(check-sat-assuming ((= tiles 1000) maps offline))
