# Completions of p21-diff for fish. Made by making/make-pages from the tool's own options.

complete -c p21-diff -s h -l help -d 'Print help'
complete -c p21-diff -l schemas -r -F -d 'a folder of schemas, each found by what a file names; in place of S. P21_SCHEMAS names one too'
complete -c p21-diff -l data -d 'leave out the header'
complete -c p21-diff -l ignore -x -d 'leave an attribute out of instances of the entity; may be given several times'
complete -c p21-diff -l full -d 'print long texts whole'
complete -c p21-diff -l names -d 'compare up to the names of instances'
complete -c p21-diff -l pairing -r -F -d 'with --names: write the pairs of names to a file'
complete -c p21-diff -l stat -d 'print a table by entity in front of the list'
complete -c p21-diff -l tolerance -x -d 'leave out values with reals that are within X, or within X times the greater one'
complete -c p21-diff -l format -x -a 'text json html' -d 'text, a JSON object a line, or a page for a browser'
