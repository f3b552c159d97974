" :make leads to the place at which tools/explain says that a job file is refused. Where this file isn't in the repository it
" is streamrun-explain, which the packages have, or g:streamrun_explain.
if exists('current_compiler')
  finish
endif
let current_compiler = 'streamrun'

let s:beside = expand('<sfile>:p:h:h:h:h') . '/tools/explain'
let s:explain = get(g:, 'streamrun_explain', executable(s:beside) ? s:beside : 'streamrun-explain')
let &l:makeprg = shellescape(s:explain) . ' --json %:S'
CompilerSet errorformat={\"file\":\ \"%f\"\\,\ \"line\":\ %l\\,\ \"column\":\ %c\\,\ \"cause\":\ \"%*[^\"]\"\\,\ \"hint\":\ \"%m\"\\,\ \"text\":%.%#
