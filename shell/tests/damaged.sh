# damaged.sh - small orders, names and lists damaged in some hundred thousand ways, in aspif and as text, under the sanitizers.
for example in shown never kinds pack-cost ordinary/mixed ordinary/externals ordinary/theory; do
    ground "examples/$example.lp" >"$tmp/$(basename "$example").aspif"
done
printf 'asp 1 0 0 incremental\n1 1 1 1 0 0\n5 2 0\n0\n1 0 1 3 1 1 2 1 1 2 1\n0\n' >"$tmp/steps.aspif"
printf 'a;b.\nc:-a,b,not d.\nd:-d,not c.\n{e;f}:-not g.\ng:-2<=#sum{1:e;1:f}.\n:-not c.\n' >"$tmp/rules.txt"
printf 'f(1,"x);y\\\\"");b.\n-c(a):-f(1,"x);y\\\\""),b,not _d.\n#delayed(1).\n#p_c(#b(a),#p):-f.\n' >"$tmp/quoted.txt"
printf 'steps=2\nstep=1,2,0,3\nstep=4,1,0,3\n' >"$tmp/list.txt"
printf '{"steps": 1, "list": [\n {"step": [1, 2, 0, 3], "kind": "tautology", "rule": 2}]}\n' >"$tmp/list.json"
expect "damaged input" sh -c '"$@" >"$0"' "$tmp/out" build/sanitized/damage "$tmp/shown.aspif" "$tmp/never.aspif" "$tmp/kinds.aspif" \
    "$tmp/pack-cost.aspif" "$tmp/mixed.aspif" "$tmp/externals.aspif" "$tmp/theory.aspif" "$tmp/steps.aspif" "$tmp/rules.txt" "$tmp/quoted.txt" \
    "$tmp/list.txt" "$tmp/list.json" examples/document-01.txt examples/easy.txt
cat "$tmp/out"
