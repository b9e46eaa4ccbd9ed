# Completion of plcsafe-lsp for bash: it takes no words, so none is offered, and no names of files either.
complete -W "" plcsafe-lsp
