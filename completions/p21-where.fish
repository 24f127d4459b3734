# Completions of p21-where for fish. Made by making/make-pages from the tool's own options.

complete -c p21-where -s h -l help -d 'Print help'
complete -c p21-where -l schemas -r -F -d 'a folder of schemas, each found by what a file names; in place of S. P21_SCHEMAS names one too'
complete -c p21-where -l schema -r -F -d 'a further schema, for files that name another one; may be given several times'
complete -c p21-where -l all -d 'each refusal of each file, and not the first one alone'
complete -c p21-where -l most -x -d 'as --all, but no more than N refusals of a file, and in SARIF of all files together'
complete -c p21-where -l format -x -a 'text lines json sarif' -d 'text, a line, a JSON object a line, or SARIF 2.1.0'
