" Highlights programs of Flux. Made by editors/make.
if exists("b:current_syntax")
  finish
endif
syntax case match
syntax keyword fluxReserved source typedef handle error atomic session
syntax keyword fluxType int long bool text char
syntax keyword fluxFunction IsZero IsNegative IsAdd IsGet IsHead TestInCache IsScrape ByConn ByNumber
syntax match fluxNode "\<\%(Tick\|Listen\|Pass\|Fail\|Show\|Echo\|Refuse\|Command\|Amount\|Add\|Read\|Bump\|Accept\|ReadRequest\|LookUp\|SendDoc\|SendHead\|NotFound\|NotAllowed\|BadRequest\|ReadName\|CheckCache\|ReadInFromDisk\|StoreInCache\|Write\|Complete\|FourOhFour\|ReadAsk\|Swarm\|Scrape\|Send\|Failure\|Full\)\%(_\w*\)\?\>"
syntax match fluxNumber "\<[0-9]\+\>"
syntax match fluxMark "->\|=>\|[?!]"
syntax match fluxWild "\<_\>"
syntax match fluxComment "//.*$"
syntax region fluxComment start="/\*" end="\*/"
highlight default link fluxReserved Keyword
highlight default link fluxType Type
highlight default link fluxFunction Function
highlight default link fluxNode Identifier
highlight default link fluxNumber Number
highlight default link fluxMark Operator
highlight default link fluxWild Special
highlight default link fluxComment Comment
let b:current_syntax = "flux"
