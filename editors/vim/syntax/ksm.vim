" Scripts of ksmbook: one command a line, words separated by one space, no comments.
if exists("b:current_syntax")
    finish
endif

" each name only at the beginning of a line, each knob only behind set or show
syntax match ksmStart /^[a-z]\+/ contains=ksmLine
syntax keyword ksmLine reg drop put get ticket rmap scan prune unmerge mergeable move movedup stat find equal look leave audit contained
syntax match ksmSetting /^\%(set\|show\) [a-z_]\+/ contains=ksmLine,ksmKnob
syntax keyword ksmLine set show contained
syntax keyword ksmKnob run pages_to_scan merge_across_nodes max_page_sharing use_zero_pages ksm_zero_pages contained
syntax match ksmNumber /\%( \)\@1<=\%(0\|[1-9]\d*\)\%( \|$\)\@=/
" the last word of the lines that have a content: 2 digits, or 128
syntax match ksmContent /\%(^reg \d\+ \d\+ \d\+ \|^put \d\+ \d\+ \|^equal \d\+ \d\+ \)\@<=\%(\x\{2}\|\x\{128}\)$/
" what makes a line bad wherever it stands
syntax match ksmBad /^ \+\| \+$\|  \+\|[^ -~]\+\|^#.*\|\%( \)\@1<=\%([-+]\d\+\|0\d\+\)\%( \)\@=/

highlight default link ksmLine Statement
highlight default link ksmKnob Identifier
highlight default link ksmNumber Number
highlight default link ksmContent String
highlight default link ksmBad Error

let b:current_syntax = "ksm"
