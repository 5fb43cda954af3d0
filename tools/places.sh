#!/bin/sh
# Counts the places of docs/DESIGN-PASS.md's points in src/, run at the top of the repository: a line for each command of the page.
# A word (1 to 8) counts that point alone.
want=${1:-12345678}

case $want in *1*)
printf '1a enums with a variant for a refusal or for nothing: '
awk '/^(pub )?enum /{e=1;h=0} e&&/^    (Refused|Broken|Nothing|Absent|Missing|Nobody|Malformed|End|Over|Failed)[(,]/{h=1} /^}/{if(e&&h)n++;e=0} END{print n+0}' crates/*/src/*.rt
printf '1b structs with a flag or a number beside a value: '
awk '/^(pub )?struct [A-Za-z]+ \{/{s=1;next} s&&/^    (pub )?(number: u32|ok: bool|seated: bool|count: u32),/{n++;s=0} /^}/{s=0} END{print n+0}' crates/*/src/*.rt
printf '1c functions that answer 0 or a refusal’s number: '
awk '/^ *(pub )?(extern "C" )?fn /{h="";on=1} on{h=h $0} on&&/^ *ensures/{if(h~/-> u32/&&$0~/refusal|linked result|grown_in result|lengths_by result|split_to result|rehome/)n++;on=0} /^}/{on=0} END{print n+0}' crates/*/src/*.rt
printf '1d parameters that are 0 or a refusal’s number: '
cat crates/*/src/*.rt | grep -cE '^ +(room|high): u32,'
printf '1e functions that change what is lent and answer whether they came to the end: '
awk '/^ *(pub )?fn /{h="";on=1} on{h=h $0} on&&/^(    )?\{/{if(h~/-> bool/&&h~/&mut/&&FILENAME!~/replay/)n++;on=0} END{print n+0}' crates/*/src/*.rt
printf '1f refusals written as numbers: '
grep -ohE 'Refused\([0-9]+\)' crates/*/src/*.rt | wc -l
grep -nE 'return (3|8|9|1[0-9]);' crates/*/src/*.rt | grep -vc smelvock
grep -nE 'return (3|8|9|1[0-9]);' crates/*/src/*.rt | grep -c smelvock
printf '1g arms that hand a refusal on (? once they are Results): '
grep -hE '^ *[A-Za-z]+::(Refused\([a-z]\)|Broken|Nothing) => ' crates/*/src/*.rt | wc -l
printf '1h numbers for kinds: '
cat crates/*/src/*.rt | grep -cE '[ (]level: u32'
cat crates/*/src/*.rt | grep -cE '[ (]view: usize'
;; esac

case $want in *2*)
printf '2a names that two or more functions share: '
grep -hoE 'fn [a-z_0-9]+' crates/*/src/*.rt | sort | uniq -d | wc -l
printf '2b functions that cut one node out of an area by hand: '
cat crates/*/src/*.rt | grep -c 'let e = a + size;'
printf '2c reply structs that differ in a type: '
cat crates/*/src/*.rt | grep -cE 'struct [A-Za-z]+Reply '
printf '2d what of the list below is still there: '
while read c l; do for f in $l; do grep -hE "(fn|struct|enum) $f( \{|[(<])" crates/$c/src/*.rt; done; done <<'E' | wc -l
model OutcomeReply NumberReply SelectedReply LocatedReply InsertedReply DividedReply
calls_by_id LookedReply
calls_planning NamedReply
tree_node start start_low
tree_area start_in start_low_in
tree_node find find_prepare find_effect
tree_node set_lengths add_lengths take_lengths put_slot
calls_size minus
tree_open lengths_at too_much small past_some
tree_node slot_for used_total
tree_open low used_totals
tree_node new_one new_two
tree_area start_in start_low_in find_in find_first_in raise_in set_lengths insert split_child new_two
tree_node keep_in
tree_links sum_node adopt
tree_open low_in totals_in
calls_read slot_of
calls_audit total_in
calls_repair_test leaf_total
tree_area word_of
tree_links word word_of slot_of
tree_node less
calls_size less
tree_node wide
tree_seats wide
smelvock_marshal wide
list_records wide
tree_open left
tree_seats left
tree_walk first_down last_down
tree_walk rank_up climb_up add_up steps_up
calls_audit depth
tree_place way_sum way_raise
tree_place place divide
tree_walk held inside sized
tree_place roomy
tree_seats sum unused
calls_audit least_leaf least_inner
calls_repair_test least_leaf least_inner
calls_audit counts
calls_repair_test counts
tree_open astray
calls_audit every_inner every_leaf are_entries are_children is_empty_from
calls_repair_test every_inner every_leaf are_fit_slots
calls_audit totals
calls_repair_test totals
calls_audit is_crossed
calls_repair_test is_fit_slot
calls_repair_write over_leaf over_inner
calls_repair_test children level
calls_repair_write slots homes_of each_leaf
calls_insert charge_for
calls_split charge_for
calls_make put_made clear_for
calls_make new reset
calls_insert insert
calls_split split_entry
calls_read locate entry_to_char_index first next cmp id lengths cursor
calls_size resize
calls_print print
calls_by_id next locate len
calls_planning insert split set new reset lengths_of count next earliest latest audit held
calls_reading insert split set new reset lookup rank next compare
list_row outcome number named measured compared inserted divided looked following updated
smelvock_marshal outcome_of number_of number_of_verdict number_of_named number_of_compared measured_of standing_of standing_of_next located_of inserted_of divided_of number_of_divided number_of_following refused_number refused_measured refused_standing refused_located refused_inserted refused_divided
smelvock_planning ranged_of refused_ranged
smelvock_reading looked_of refused_looked
smelvock_marshal bad_head bad_seats bad_stored bad_seated_flag bad_flag bad_view bad_made bad_shares
smelvock_marshal settle settle_grown settle_finger settle_found
list_records view_of
smelvock_marshal view_from
calls_by_id target place
list_row target_ids
tree_place with_finger
calls_repair without_finger
calls_read hit
editrun Streams Input turn run
replay Streams Input turn run
rowrun Streams Input turn run
sheetrun Streams Input turn run_blocks
tree_words shift open_gap
smelvock_marshal FlatNumber FlatMeasured FlatCursor FlatStanding FlatLocated FlatInserted FlatDivided
smelvock_planning FlatBounds
smelvock_reading FlatLooked
E
;; esac

case $want in *3*)
printf '3a while loops: '
cat crates/*/src/*.rt | grep -v '^ *//' | grep -cE '^ *while '
cat crates/*/src/*.rt | grep -v '^ *//' | grep -cE '^ *for |\.iter\(\)|\.map\('
printf '3b loops over a slot’s lengths written out: '
cat crates/*/src/*.rt | grep -cE 'if [23] < stride'
printf '3c runs of four and more x[0] = ..; x[1] = ..;: '
awk '/^ *[a-z]+\[[0-9]+\] = .*;$/{if(FNR==l+1)r++;else r=1;l=FNR;if(r==4)n++} END{print n+0}' crates/*/src/*.rt
;; esac

case $want in *4*)
printf '4a types with no derive but Clone and Copy: '
cat crates/*/src/*.rt | grep -c '#\[derive(Clone, Copy)\]'
printf '4b comparisons of the number inside an id, for want of PartialEq, PartialOrd: '
grep -hE '\.0 *(==|!=|<|>|<=|>=) |(==|!=|<|>|<=|>=) [a-z.]+\.0( |$)' crates/*/src/*.rt | grep -vcE 'requires|ensures'
printf '4c if c { return true or false; }, where && and || say it: '
awk '/^ *if .* \{$/{i=FNR} /^ *return (true|false);$/{if(i==FNR-1)n++} END{print n+0}' crates/*/src/*.rt
printf '4d calls of std: '
cat crates/*/src/*.rt | grep -c 'std::num::wrapping_'
printf '4e a slot’s four words written out from a Slot: '
cat crates/*/src/*.rt | grep -c '^ *slot.child,$'
printf '4f fields named twice, x: '
awk '/^ +[a-z_]+: [a-z_]+,$/{k=$1;sub(/:/,"",k);v=$2;sub(/,/,"",v);if(k==v)n++} END{print n+0}' crates/*/src/*.rt
printf '4g the functions of the table below that are still there: '
while read c l; do for f in $l; do grep -hE "fn $f[(<]" crates/$c/src/*.rt; done; done <<'E' | wc -l
calls_read by_slot
tree_walk in_order
tree_finger lower higher span
calls_print least
tree_open in_use
tree_open left
tree_seats left
tree_node less
calls_size less
tree_words is_apart
calls_edits either
list_records both
calls_repair_test is_full is_long
calls_edits is_listed
tree_place with_finger entered
calls_repair without_finger
calls_read hit
list_row no_ids one_id
smelvock_marshal nowhere
list_row done refuse
tree_node wide
tree_seats wide
smelvock_marshal wide
list_records wide
list_records view_of
smelvock_marshal view_from
model number of
smelvock_marshal cursor_from lengths_from target_from seat_from
smelvock_marshal head_from held_from stamp_from present_of is_held finger_of put_head put_stamp
smelvock_marshal outcome_of number_of number_of_verdict number_of_named number_of_compared measured_of standing_of standing_of_next located_of inserted_of divided_of number_of_divided number_of_following refused_number refused_measured refused_standing refused_located refused_inserted refused_divided cursor_of
smelvock_planning ranged_of refused_ranged
smelvock_reading looked_of refused_looked
list_row outcome number named measured compared inserted divided looked following updated
calls_size unnumbered
calls_planning named
list_records word_at read write decode
editrun word number_in
list_stream decimal digits field line
calls_print glyph column fields line blank_line
editrun refuse say
E
;; esac

case $want in *5*)
printf '5a facts of requires (old, new and now struck out) that stand in three or more contracts: '
cat > /tmp/p5.awk <<'E'
/^ *requires( [a-z_]+)? \{/ { s=$0; sub(/^ *requires( [a-z_]+)? \{ /,"",s); sub(/ \}$/,"",s); gsub(/\.(old|now|new)/,"",s)
  n=split(s,p," × "); for(i=1;i<=n;i++){ f=p[i]; if (f ~ /^\(.*\)$/) {sub(/^\(/,"",f); sub(/\)$/,"",f)} c[f]++ } }
END { for (f in c) if (c[f]>2) { k++; t+=c[f]; if (list) print c[f] "\t" f } print k " facts, " t " places" }
E
awk -f /tmp/p5.awk crates/*/src/*.rt
printf '5c clauses of requires on the length of a fixed array, which its type says: '
awk '/^ *(pub )?(extern "C" )?fn /{h="";on=1} on{h=h " " $0} /^ *requires/&&on{s=$0;while(match(s,/length [a-z]+\.(old|now) ≡ [0-9]+/)){t=substr(s,RSTART,RLENGTH);s=substr(s,RSTART+RLENGTH);split(t,a," ");v=a[2];sub(/\..*/,"",v);if(h~("[ (]" v ": &(mut )?\\[u[0-9]+; " a[4] "\\]"))n++}} /^ *ensures/{on=0} END{print n+0}' crates/*/src/*.rt
printf '5b functions, exports left out, whose parameters have all these names: '
group() { awk -v g="$*" 'BEGIN{m=split(g,w," ")} /^ *(pub )?(extern "C" )?fn /{h="";on=1;x=($0~/extern/)} on{h=h " " $0} on&&/^ *(requires|ensures|\{)|\{$/{on=0;k=!x;for(i=1;i<=m;i++)if(h!~("[ (]" w[i] ": "))k=0;if(k)n++} END{print n+0 "\t" g}' crates/*/src/*.rt; }
for g in "head leaves inners homes" "leaves inners g" "area g k" "leaves g k" "inners g k" "views fan nodes" "g view effect" "views ordered" "views effect" "fan limit" "seats seat" "effects prepares" "upper lower named" "order marks" "n most count" "top" "d0 d1 d2" "page at" "out at" "streams" "given own"; do group $g; done
;; esac

case $want in *6*)
printf '6a functions with a slice and a place or count beside it: '
awk '/^ *(pub )?fn /{h="";on=1} on{h=h " " $0} on&&/^ *(requires|ensures|\{)|\{$/{on=0;if(h~/&(mut )?\[u(8|16|32)\]/&&h~/[ (](kept|have|count|most|at|from|end|start|last): usize/)n++} END{print n+0}' crates/*/src/*.rt
printf '6b lines that take a fixed array by reference: '
cat crates/*/src/*.rt | grep -cE '&(mut )?\[u(8|16|32); [0-9]+\]'
printf '6c fields that are fixed arrays: '
cat crates/*/src/*.rt | grep -cE '^    pub [a-z]+: \[u(8|16|32); [0-9]+\],'
;; esac

case $want in *7*)
printf '7a tests of a flag or kind that choose a step: '
cat crates/*/src/*.rt | grep -cE 'if !?(level == 1|summed|before|lowest|ordered|stayed|yes|fair|view == (0|effect))( |$)'
printf '7b match on a call, kind, seat, view or target: '
cat crates/*/src/*.rt | grep -cE 'match (call|kind|view|self|seat|before|half % 16) \{'
printf '7c closures, impl Fn, dyn: '
cat crates/*/src/*.rt | grep -v '^ *//' | grep -vE 'ghost|ensures|requires' | grep -cE 'impl Fn|dyn |\|[a-z_]+\| '
;; esac

case $want in *8*)
printf '8a figure 29,130 lines, 671 files, 2,587 answers, 618, 443. Columns: '
for c in crates/*/; do [ -d $c/proofs ] || continue
a() { find $c/proofs -name '*.antt' -exec cat {} +; }
echo $(basename $c) $(a | wc -l) $(find $c/proofs -name '*.antt' | wc -l) $(a | grep -cE '^pub [^ ]+ : goal\.') $(a | grep -v ': goal\.' | grep -cE '^(pub )?[a-zA-Z_0-9-]+ : ') $(a | grep -cE "^[^ ]+ [^=]*= *(omega arith|refl|\(\)|c\.[A-Za-z_0-9.-]+)$"); done | awk '{print} {l+=$2;f+=$3;a+=$4;d+=$5;p+=$6} END{print "sum", l, f, a, d, p}'
;; esac
