" A comment has a line of its own; a job may go on in lines that begin with a point.
if exists('b:did_ftplugin')
  finish
endif
let b:did_ftplugin = 1

setlocal commentstring=#\ %s comments=:#,:// formatoptions-=t
" :make shows where the file is refused.
silent! compiler streamrun
let b:undo_ftplugin = 'setlocal commentstring< comments< formatoptions<'
