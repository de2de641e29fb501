" :make checks a script of pedrun, and jumps to the byte of its fault.
" g:pedrun_program names the program, by default pedrun on the PATH: let g:pedrun_program = './pedrun'
if exists('current_compiler')
  finish
endif
let current_compiler = 'pedrun'

let s:kept = &cpoptions
set cpoptions&vim

execute 'CompilerSet makeprg=' . escape(shellescape(get(g:, 'pedrun_program', 'pedrun')), ' \|"%#') . '\ check\ <\ %:S'
" A fault's byte stands in place of the column until s:Placed has found its line. All other lines of the program are shown as they are.
CompilerSet errorformat=script:\ %m\ at\ byte\ %c,%-Gok

" What replaces a list of faults: each has its line and column in the buffer that was checked, and the first of them is the one to jump to.
function! s:Placed(faults) abort
  let first = 0
  for at in range(len(a:faults))
    let fault = a:faults[at]
    if !fault.valid || fault.lnum > 0 || fault.bufnr > 0
      continue
    endif
    let fault.bufnr = bufnr('%')
    let byte = fault.col
    " At the end of the text there is no byte.
    let fault.lnum = byte2line(byte + 1) > 0 ? byte2line(byte + 1) : line('$')
    let fault.col = byte - line2byte(fault.lnum) + 2
    let fault.type = 'E'
    let first = first > 0 ? first : at + 1
  endfor
  return first > 0 ? {'items': a:faults, 'idx': first} : {'items': a:faults}
endfunction

augroup pedrun
  autocmd!
  autocmd QuickFixCmdPost make if &filetype ==# 'ped' | call setqflist([], 'r', s:Placed(getqflist())) | endif
  autocmd QuickFixCmdPost lmake if &filetype ==# 'ped' | call setloclist(0, [], 'r', s:Placed(getloclist(0))) | endif
augroup END

let &cpoptions = s:kept
unlet s:kept
