# Completions of p21-adapt for fish. Made by making/make-pages from the tool's own options.

complete -c p21-adapt -s h -l help -d 'Print help'
complete -c p21-adapt -l from -r -F -d 'a listing that declares what this one takes by USE or REFERENCE; may be given several times'
complete -c p21-adapt -s o -l output -r -F -d 'where the copy is written; standard output without it'
