" Policies of ifsvm: files that end in .ifsvm, and those of a folder of that name.
autocmd BufRead,BufNewFile *.ifsvm,*/ifsvm/policy,*/ifsvm/policy.*,*/ifsvm/*.policy setfiletype ifsvm
