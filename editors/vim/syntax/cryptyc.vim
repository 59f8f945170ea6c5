" Vim syntax file. Language: Cryptyc, authentication protocols in the spi calculus. File ending: .spi
if exists('b:current_syntax')
  finish
endif

" A name is matched as a whole, so no part of it is taken for a word or a number. Later items win at one place.
syntax match cryptycName /\%([A-Za-z_]\|[^\x00-\x7f]\)\%([A-Za-z0-9_]\|[^\x00-\x7f]\)*/
syntax match cryptycNumber /[0-9]\+/
syntax match cryptycPunctuation /[][(){},;:]/
syntax match cryptycOperator /[=|+#]/

" cryptycWords GROUP WORD ..: these words, where they are whole names
function! s:Words(group, words, options) abort
  let behind = '\%([A-Za-z0-9_]\|[^\x00-\x7f]\)\@!'
  execute 'syntax match' a:group '/\%(' . join(a:words, '\|') . '\)' . behind . '/' a:options
endfunction

call s:Words('cryptycDeclaration', ['free', 'type', 'process', 'opponent'], '')
call s:Words('cryptycAssertion', ['begin', 'end', 'check', 'cast'], '')
call s:Words('cryptycProcess', ['out', 'inp', 'repeat', 'split', 'match', 'case', 'decrypt', 'new', 'stop'], '')
call s:Words('cryptycWord', ['is', 'inl', 'inr'], '')
call s:Words('cryptycType', ['Un', 'Key', 'Nonce'], '')
syntax match cryptycComment /\/\/.*$/ contains=@Spell

" The last parts of a file, in which more words have a meaning
call s:Words('cryptycStep', ['act', 'talk'], 'contained')
call s:Words('cryptycRule', map(split('Begin Case CaseUn Cast CastUn Check CheckUn Decrypt DecryptUn End EndMany In '
      \ . 'Match MatchUn New Out Par Repeat Split SplitUn Stop Sub'), '"Proc" . v:val'), 'contained')
call s:Words('cryptycRule', map(split('Enc EncUn Hash Inl InlUn Inr InrUn Name Pair PairUn Unit UnitUn'),
      \ '"Msg" . v:val'), 'contained')
syntax cluster cryptycTokens contains=cryptycName,cryptycNumber,cryptycPunctuation,cryptycOperator,cryptycDeclaration,
      \cryptycAssertion,cryptycProcess,cryptycWord,cryptycType,cryptycComment
let s:Behind = '\%([A-Za-z0-9_]\|[^\x00-\x7f]\)\@!'
execute 'syntax region cryptycSchedule matchgroup=cryptycDeclaration start=/schedule' . s:Behind
      \ . '/ end=/\%(derivation' . s:Behind . '\)\@=\|\%$/ contains=@cryptycTokens,cryptycStep'
execute 'syntax region cryptycDerivation matchgroup=cryptycDeclaration start=/derivation' . s:Behind
      \ . '/ end=/\%$/ contains=@cryptycTokens,cryptycRule,cryptycEffect'
syntax region cryptycEffect contained matchgroup=cryptycPunctuation start=/\[/ end=/\]/ contains=@cryptycTokens

" In a file of version 2 three words more are reserved. The words are looked for when the file is read.
let s:line = nextnonblank(1)
while getline(s:line) =~# '^\s*\%(\/\/.*\)\?$' && s:line < line('$')
  let s:line += 1
endwhile
if getline(s:line) =~# '^\s*version\s\+0*2\s*;'
  syntax match cryptycDeclaration /\<version\ze\s\+0*2\s*;/
  call s:Words('cryptycAssertion', ['endmany'], '')
  call s:Words('cryptycWord', ['hash', 'many'], '')
endif

syntax sync fromstart

highlight default link cryptycDeclaration Keyword
highlight default link cryptycProcess Statement
highlight default link cryptycAssertion PreProc
highlight default link cryptycStep Statement
highlight default link cryptycRule Function
highlight default link cryptycWord Operator
highlight default link cryptycType Type
highlight default link cryptycNumber Number
highlight default link cryptycOperator Operator
highlight default link cryptycPunctuation Delimiter
highlight default link cryptycComment Comment
highlight default link cryptycName Identifier

let b:current_syntax = 'cryptyc'
