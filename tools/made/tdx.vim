" Colours of tdx scripts for Vim. Made by tools/companions.
if exists("b:current_syntax")
  finish
endif
syntax case match
syntax iskeyword 33-126
syntax keyword tdxBlock contained machine schedule code lp end
syntax keyword tdxOperation contained set secret add load store accept rtmr report vmcall
syntax keyword tdxCall contained HOST.READ HOST.WRITE PHYMEM.PAGE.RDMD PHYMEM.CACHE.WB PHYMEM.PAGE.RECLAIM MNG.CREATE MNG.KEY.CONFIG MNG.ADDCX MNG.INIT MNG.RD MNG.VPFLUSHDONE MNG.KEY.FREEID MR.EXTEND MR.FINALIZE VP.CREATE VP.INIT VP.ENTER VP.FLUSH MEM.SEPT.ADD MEM.SEPT.RD MEM.SEPT.REMOVE MEM.PAGE.ADD MEM.PAGE.AUG MEM.PAGE.REMOVE MEM.PAGE.RELOCATE MEM.RANGE.BLOCK MEM.RANGE.UNBLOCK MEM.TRACK MIG.STREAM.CREATE EXPORT.STATE.IMMUTABLE EXPORT.BLOCKW EXPORT.UNBLOCKW EXPORT.MEM EXPORT.TRACK EXPORT.PAUSE EXPORT.STATE.TD EXPORT.STATE.VP EXPORT.ABORT EXPORT.RESTORE IMPORT.STATE.IMMUTABLE IMPORT.MEM IMPORT.TRACK IMPORT.STATE.TD IMPORT.STATE.VP IMPORT.COMMIT IMPORT.END IMPORT.ABORT
syntax match tdxField /\v \zs%(LIFE|OP|EPOCH|MRTD)\ze%( |$)/
syntax match tdxNumber /\v \zs%(0x\x+|\d+)%(\*%(0x\x+|\d+))?\ze%( |$)/
syntax match tdxFirst /\v^ *\zs[^ ]+/ contains=tdxBlock,tdxOperation,tdxCall
syntax match tdxComment /\v^ *#.*/
highlight default link tdxBlock Keyword
highlight default link tdxOperation Keyword
highlight default link tdxCall Keyword
highlight default link tdxField Constant
highlight default link tdxFirst Error
highlight default link tdxNumber Number
highlight default link tdxComment Comment
let b:current_syntax = "tdx"
