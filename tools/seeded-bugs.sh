#!/usr/bin/env bash
# seeded-bugs.sh [SEED [PICTURES [PART]]]: small wrong edits of the second program, one at a time in a copy, each held against the
# answers of the proved judge to the same batches, those of the proved calls of a settings history to the same stories, or the texts
# of the product's programs for the same pictures and trials. There are as many random stories as PICTURES; PART is answers, stories
# or texts where only those are wanted. Prints a row for each; the status is 0 only where every edit is found.
set -u
case "${1:-}" in -h | --help) sed -n '2,/^set /s/^# //p' "$0"; exit ;; esac
cd "$(dirname "$(readlink -f "$0")")/.." || exit 2
self=seeded-bugs.sh
. tools/build.sh
. tools/second.sh
seed=${1:-1} pictures=${2:-400} part=${3:-all}
work=$PWD/target/seeded-bugs
case $part in
all) needed=(batch fiswalend.a explain tree) ;;
answers) needed=(batch) ;;
stories) needed=(fiswalend.a) ;;
texts) needed=(explain tree) ;;
*) echo "$self: there is no part $part" >&2; exit 2 ;;
esac
rm -rf "$work"
mkdir -p "$work"
for name in "${needed[@]}"; do build "$name" || exit 1; done
build_second || exit 1
bugs=0 found=0

# wanted PART: whether it is run
wanted() {
    [ "$part" = all ] || [ "$part" = "$1" ]
}

# ask WORD COMMAND..: keeps what the command answers to the hand-written and the random input of the second program's WORD, which
# answers the same; the input is hand.WORD and random.WORD
ask() {
    local word=$1 input
    shift
    for input in "$work/hand.$word" "$work/random.$word"; do
        "$@" <"$input" >"$input.judge"
        "$second" "$word" <"$input" | cmp -s - "$input.judge" || { echo "the two differ without an edit: $input"; exit 1; }
    done
}

if wanted answers; then
    "$second" batch >"$work/hand.answers"
    "$second" generate "$seed" "$pictures" >"$work/random.answers"
    ask answers run_built batch
    echo "$(wc -l <"$work/hand.answers.judge") hand-written answers, $(wc -l <"$work/random.answers.judge") random ones (seed $seed, $pictures pictures)"
fi
if wanted stories; then
    build_histories "$work/histories" >"$work/log" 2>&1 || { cat "$work/log"; exit 1; }
    "$second" story-cases >"$work/hand.story-answers"
    "$second" stories "$seed" "$pictures" >"$work/random.story-answers"
    ask story-answers run_x86 "$work/histories"
    echo "$(wc -l <"$work/hand.story-answers.judge") steps of hand-written stories, $(wc -l <"$work/random.story-answers.judge") of random ones (seed $seed, $pictures stories)"
fi
if ! [ "$part" = texts ]; then
    echo "| file | what is wrong | found | answers that differ | in hand-written calls | in random ones |"
    echo "|---|---|---|---|---|---|"
fi

# differing WORD INPUT: how many answers of the edited program are not those of the proved calls
differing() {
    local input=$work/$2.$1
    "$work/target/release/second" "$1" <"$input" >"$input.edited" 2>/dev/null || { echo "stopped"; return; }
    awk 'NR == FNR { wanted[FNR] = $0; next } wanted[FNR] != $0 { n++ } END { print n + 0 }' "$input.judge" "$input.edited"
}

# sow FILE OLD NEW: builds the second program with one text of a file changed
sow() {
    local text
    bugs=$((bugs + 1))
    rm -rf "$work/copy"
    mkdir "$work/copy"
    cp -r second/Cargo.toml second/Cargo.lock second/src "$work/copy"
    text=$(cat "second/src/$1"; echo .)
    case $text in *"$2"*) ;; *) echo "no such text in $1: $2"; exit 1 ;; esac
    text=${text/"$2"/"$3"}
    printf '%s' "${text%.}" >"$work/copy/src/$1"
    (cd "$work/copy" && CARGO_INCREMENTAL=1 CARGO_TARGET_DIR=$work/target cargo build --release --offline --quiet 2>"$work/log") || { cat "$work/log"; exit 1; }
}

# row WORD FILE WORDS OLD NEW: one that the answers of the second program's WORD must show
row() {
    local hand random verdict=no
    sow "$2" "$4" "$5"
    hand=$(differing "$1" hand) random=$(differing "$1" random)
    if [ "$hand" != 0 ] || [ "$random" != 0 ]; then verdict=yes found=$((found + 1)); fi
    echo "| $2 | $3 | $verdict | $((${hand/stopped/1} + ${random/stopped/1})) | $hand | $random |"
}

# bug FILE WORDS OLD NEW: one that answers to batches must show
bug() {
    if wanted answers; then row answers "$@"; fi
}

# story_bug FILE WORDS OLD NEW: one that answers to stories must show
story_bug() {
    if wanted stories; then row story-answers "$@"; fi
}

# text PICTURE COMMAND..: what it prints of a picture, as one line
text() {
    local picture=$1
    shift
    "$@" <"$picture" 2>&1 | tr '\n' /
    echo
}

# texts RUN: the sentence and the drawing of each picture, and the sentence of each trial, by a second program or run_built
texts() {
    local picture
    for picture in "$work"/pictures/*; do
        text "$picture" "$1" explain
        text "$picture" "$1" tree
    done
    for picture in "$work"/patches/*.picture; do text "$picture" "$1" explain "${picture%.picture}.patch"; done
}

# text_bug FILE WORDS OLD NEW: one that texts must show
text_bug() {
    local differ
    wanted texts || return 0
    sow "$1" "$3" "$4"
    differ=$(texts "$work/target/release/second" | diff - "$work/texts.judge" | grep -c '^<')
    [ "$differ" -eq 0 ] || found=$((found + 1))
    echo "| $1 | $2 | $([ "$differ" -eq 0 ] && echo no || echo yes) | $differ |"
}

bug picture.rs "the last entry of a vector never applies" '(entry < self.size)' '(entry + 1 < self.size)'
bug picture.rs "a vector's first target is below it" 'if target < self.start {' 'if target <= self.start {'
bug picture.rs "entries counted from a byte's top bit" '(entry % 8) & 1 == 1' '(7 - entry % 8) & 1 == 1'
bug picture.rs "upper words used by Prefetchable type 0 too" '1 => (word(self.bytes, 16)' '0 | 1 => (word(self.bytes, 16)'
bug picture.rs "Low granularity one step too coarse allowed" 'code <= 4 - size_code' 'code <= 5 - size_code'
bug picture.rs "RID granularity 256 allowed with 1,024 entries" '(0, 5) => Some(256)' '(0 | 2, 5) => Some(256)'
bug picture.rs "bits 23:19 asked for with RID decoding off" 'self.ari() && self.rid().enabled' 'self.ari()'
bug picture.rs "ARI counted at an upstream port" 'self.kind() != Some(Kind::Upstream) && half(' 'half('
bug picture.rs "a chain of 16 refused" 'if depth > 16 {' 'if depth > 15 {'
bug picture.rs "a second upstream child accepted" 'other.kind() != Some(Kind::Root) &&' 'other.kind() == Some(Kind::Downstream) &&'
bug picture.rs "number 10 at the end names no port" 'Refusal::at_port(10, 255)' 'Refusal::bare(10)'
bug picture.rs "Memory Limit not filled with ones" 'half(self.bytes, 10)) | 0xF_FFFF' 'half(self.bytes, 10))'
bug claims.rs "a bus pair 0, s claims nothing" 'self.secondary == 0 && self.subordinate == 0' 'self.secondary == 0'
bug claims.rs "4 GiB itself looked up in the Low vector" 'low: address < FOUR_GIB' 'low: address <= FOUR_GIB'
bug claims.rs "4 GiB itself not looked up in the High vector" 'high: address >= FOUR_GIB' 'high: address > FOUR_GIB'
bug claims.rs "Memory Space Enable asked for below 4 GiB only" 'if !self.memory_space {' 'if !self.memory_space && address < FOUR_GIB {'
bug claims.rs "Num Sec Dev n taken for n device numbers" 'unit(id) <= start + self.num_sec_dev' 'unit(id) < start + self.num_sec_dev'
bug claims.rs "with ARI the Secondary range is one unit" 'bus(id) == bus(start * 8)' 'unit(id) == start'
bug claims.rs "the Secondary range counts with RID decoding off" 'self.rid.is_some() && inside' 'inside'
bug claims.rs "ARI forgotten in the bus pair's Type 0" '|| self.ari || device(id) == 0' '|| device(id) == 0'
bug claims.rs "bus and rid have each other's bit in a claim" 'self.bus as u32 | (self.rid as u32) << 1' 'self.rid as u32 | (self.bus as u32) << 1'
bug claims.rs "pref has a bit that no decoder has in a claim" '(self.pref as u32) << 3' '(self.pref as u32) << 7'
bug claims.rs "Prefetchable left out of what a claim is" 'self.mem || self.pref ||' 'self.mem ||'
bug claims.rs "an own ID counted as a claim" 'self.decoders(target).any()' 'self.owns(target) || self.decoders(target).any()'
bug claims.rs "an own ID counted as claimed by the bus pair, in names only" 'decoders: self.decoders(target) }' 'decoders: Decoders { bus: self.owns(target) || self.decoders(target).bus, ..self.decoders(target) } }'
bug claims.rs "the RID vector not asked where the bus pair claims" 'let rid = self.rid' 'let rid = !self.bus_pair_claims(id) && self.rid'
bug claims.rs "Prefetchable not asked where Memory claims" 'pref: self.prefetchable' 'pref: !self.memory.contains(address) && self.prefetchable'
bug claims.rs "the Low vector not asked where Memory claims" 'low: address' 'low: !self.memory.contains(address) && address'
bug claims.rs "the High vector not asked where Prefetchable claims" 'high: address' 'high: !self.prefetchable.contains(address) && address'
bug claims.rs "decoders without the RID vector at a port's own ID" 'decoders: self.decoders(target) }' 'decoders: Decoders { rid: self.decoders(target).rid && !self.owns(target), ..self.decoders(target) } }'
bug claims.rs "the values of Type 1 and Unsupported Request exchanged" 'Conversion::Type1 => 2,' 'Conversion::Unsupported => 2, Conversion::Type1 => 3,'
bug claims.rs "the value of Type 0 for not claimed" 'Conversion::NotClaimed => 0,' 'Conversion::NotClaimed => 1,'
bug picture.rs "bit 4 of Bridge Control for VGA Enable" 'half(record.bytes, 26) >> 3 & 1 == 1' 'half(record.bytes, 26) >> 4 & 1 == 1'
bug picture.rs "bit 4 of Bridge Control as good as VGA Enable" 'half(record.bytes, 26) >> 3 & 1 == 1' 'half(record.bytes, 26) >> 3 & 3 > 0'
bug picture.rs "VGA Enable not counted at an upstream port" 'half(record.bytes, 26) >> 3 & 1 == 1' 'kind != Kind::Upstream && half(record.bytes, 26) >> 3 & 1 == 1'
bug picture.rs "the video range one address too long" 'last: 0xB_FFFF }' 'last: 0xC_0000 }'
bug picture.rs "the video range of 64 KiB" 'last: 0xB_FFFF }' 'last: 0xA_FFFF }'
bug picture.rs "the video range begins one address too late" 'base: 0xA_0000,' 'base: 0xA_0001,'
bug picture.rs "the video range to the end of its MiB" 'last: 0xB_FFFF }' 'last: 0xF_FFFF }'
bug claims.rs "the video range without VGA Enable" 'vga: self.vga_enable && VIDEO_RANGE' 'vga: VIDEO_RANGE'
bug claims.rs "the video range without Memory Space Enable" $'if !self.memory_space {\n            return Decoders::default();' $'if !self.memory_space {\n            return Decoders { vga: self.vga_enable && VIDEO_RANGE.contains(address), ..Decoders::default() };'
bug claims.rs "the video range compared by its low 32 bits" 'VIDEO_RANGE.contains(address)' 'VIDEO_RANGE.contains(address as u32 as u64)'
bug claims.rs "the video range not asked where Memory claims" 'vga: self.vga_enable' 'vga: !self.memory.contains(address) && self.vga_enable'
bug claims.rs "the Low vector not asked in the video range" 'low: address < FOUR_GIB' 'low: !(self.vga_enable && VIDEO_RANGE.contains(address)) && address < FOUR_GIB'
bug claims.rs "the video range left out of what a claim is" '|| self.high || self.vga' '|| self.high'
bug claims.rs "high and vga have each other's bit in a claim" $'(self.high as u32) << 5;\n        of_ids | windows | vectors | (self.vga as u32) << 6' $'(self.vga as u32) << 5;\n        of_ids | windows | vectors | (self.high as u32) << 6'
bug claims.rs "vga has no bit in a claim" ' | (self.vga as u32) << 6' ''
bug check.rs "the video range gives no candidates" 'if port.vga_enable {' 'if port.vga_enable && false {'
bug judge.rs "the word vga before high" '" high", " vga"' '" vga", " high"'
bug judge.rs "the word vga left out of the line" '" high", " vga"' '" high", ""'
bug patch.rs "VGA Enable cleared at the ports of a patch" 'let to = record.vectors_start()' 'patched[crate::picture::edition_of(picture).unwrap().record_start(entry.port) + 26] &= !8; let to = record.vectors_start()'
bug walk.rs "rule 5 takes an own ID for a claim" 'if picture.ports[port].claims(target)' 'if picture.ports[port].holds(target)'
bug walk.rs "Type 1 looks at own IDs too" 'child.claims_id(id)' 'child.holds(Target::Id(id))'
bug walk.rs "Function numbers of 3 bits with ARI" '{ 0xFF } else' '{ 0x07 } else'
bug walk.rs "a childless upstream port has a device" 'if picture.is_device_port(port) {' 'if picture.ports_at(Some(port)).is_empty() {'
bug check.rs "only neighbours among the holders tried" '&seen.holders[index..]' 'seen.holders[index..].iter().take(2)'
bug check.rs "a port never tried with itself" '{ claims_own }' '{ claims_own && false }'
bug check.rs "a parent's own ID taken for a claim" '!seen.claimers.contains(&parent)' '!seen.holders.contains(&parent)'
bug check.rs "ends of granules are no candidates" 'candidates.extend(edge(entry + 1));' ''
bug check.rs "number 15 asks for a claim only" '!= Conversion::Type0' '== Conversion::NotClaimed'
bug check.rs "the second port's decoders those of the first" 'picture.holder(second, seen.target)' 'crate::picture::Named { port: second as u8, ..picture.holder(first, seen.target) }'
bug check.rs "the first port's decoders those of the second" 'picture.holder(first, seen.target)' 'crate::picture::Named { port: first as u8, ..picture.holder(second, seen.target) }'
bug check.rs "the decoders of the parent in 13 and 14" 'vec![picture.holder(port, seen.target)]' 'vec![crate::picture::Named { port: port as u8, ..picture.holder(picture.ports[port].parent.unwrap(), seen.target) }]'
bug check.rs "the line of 15 says why, too" 'Refusal::at_port(15, port)' 'Refusal { ports: vec![picture.holder(port, Target::Id(what.own_id))], ..Refusal::bare(15) }'
bug claims.rs "18 without the parent's Unsupported Request" 'Conversion::Type0 | Conversion::Unsupported' 'Conversion::Type0'
bug claims.rs "18 without the parent's Type 0" 'Conversion::Type0 | Conversion::Unsupported' 'Conversion::Unsupported'
bug check.rs "18 of what a port holds" 'let stopped = seen.claimers' 'let stopped = seen.holders'
bug check.rs "18 before 15" $'refuse_unreached(picture)?;\n    refuse_stopped(picture, &ids)' $'refuse_stopped(picture, &ids)?;\n    refuse_unreached(picture)'
bug check.rs "18 before 14" 'refuse_escape(14,' $'refuse_stopped(picture, &ids)?;\n    refuse_escape(14,'
bug check.rs "18 before 13" 'refuse_escape(13,' $'refuse_stopped(picture, &ids)?;\n    refuse_escape(13,'
bug check.rs "18 before 11" 'refuse_overlap(11,' $'refuse_stopped(picture, &ids)?;\n    refuse_overlap(11,'
bug check.rs "18 with the greatest ID" '(0..=0xFFFF).zip(ids) {' '(0..=0xFFFFu16).zip(ids).rev() {'
bug check.rs "18 with the highest port" 'seen.claimers.iter().find' 'seen.claimers.iter().rev().find'
bug check.rs "18 of root ports too, by what they make of it themselves" $'stops(id),\n            None => false' $'stops(id),\n            None => picture.ports[port].stops(id)'
bug check.rs "18 by what the port itself makes of it" 'picture.ports[parent].stops(id)' 'picture.ports[port].stops(id)'
bug check.rs "18 not looked for below root ports" 'picture.ports[parent].stops(id)' 'picture.ports[parent].parent.is_some() && picture.ports[parent].stops(id)'
bug check.rs "18 not looked for below upstream ports" 'picture.ports[parent].stops(id)' 'picture.ports[parent].kind != crate::picture::Kind::Upstream && picture.ports[parent].stops(id)'
bug check.rs "18 not looked for below downstream ports" 'picture.ports[parent].stops(id)' 'picture.ports[parent].kind != crate::picture::Kind::Downstream && picture.ports[parent].stops(id)'
bug check.rs "18 of claims by the bus pair only" 'picture.ports[parent].stops(id)' 'picture.ports[port].bus_pair_claims(id) && picture.ports[parent].stops(id)'
bug check.rs "18 of claims by the RID vector only" 'picture.ports[parent].stops(id)' 'picture.ports[port].decoders(seen.target).rid && picture.ports[parent].stops(id)'
bug check.rs "18 of what the parent's bus pair claims only" 'picture.ports[parent].stops(id)' 'picture.ports[parent].bus_pair_claims(id) && picture.ports[parent].stops(id)'
bug check.rs "18 of what the parent's RID vector claims only" 'picture.ports[parent].stops(id)' 'picture.ports[parent].decoders(seen.target).rid && picture.ports[parent].stops(id)'
bug check.rs "18 of the Secondary range with RID decoding off" 'picture.ports[parent].stops(id)' '{ let above = &picture.ports[parent]; let none = Vector { start: 0, granularity: 8, size: 0, bytes: Vec::new() }; Port { rid: above.rid.clone().or(Some(none)), ..above.clone() }.stops(id) }'
bug check.rs "18 of the Secondary range one unit too short" 'picture.ports[parent].stops(id)' '{ let above = &picture.ports[parent]; Port { num_sec_dev: above.num_sec_dev.saturating_sub(1), ..above.clone() }.stops(id) }'
bug check.rs "18 of the Secondary range one unit too long" 'picture.ports[parent].stops(id)' '{ let above = &picture.ports[parent]; Port { num_sec_dev: above.num_sec_dev + 1, ..above.clone() }.stops(id) }'
bug check.rs "18 of the Secondary range one unit too late" 'picture.ports[parent].stops(id)' '{ let above = &picture.ports[parent]; Port { secondary_start: above.secondary_start + 1, ..above.clone() }.stops(id) }'
bug check.rs "18 of the Secondary range come round to unit 0" 'picture.ports[parent].stops(id)' '{ let above = &picture.ports[parent]; let round = above.kind == crate::picture::Kind::Upstream && above.rid.is_some() && id / 8 + 8192 <= above.secondary_start + above.num_sec_dev; round || above.stops(id) }'
bug check.rs "18 of one unit with ARI" 'picture.ports[parent].stops(id)' 'Port { ari: false, ..picture.ports[parent].clone() }.stops(id)'
bug check.rs "18 of a bus without ARI" 'picture.ports[parent].stops(id)' 'Port { ari: true, ..picture.ports[parent].clone() }.stops(id)'
bug check.rs "18 of Num Sec Dev at any port" 'picture.ports[parent].stops(id)' 'Port { kind: crate::picture::Kind::Upstream, ..picture.ports[parent].clone() }.stops(id)'
bug check.rs "18 of the bus Secondary without a pair that claims" 'picture.ports[parent].stops(id)' '(picture.ports[parent].stops(id) || (id >> 8) as u8 == picture.ports[parent].secondary)'
bug check.rs "18 of every bus of the pair" 'picture.ports[parent].stops(id)' '(picture.ports[parent].stops(id) || picture.ports[parent].bus_pair_claims(id))'
bug check.rs "18 of device 0 of the bus Secondary only" 'picture.ports[parent].stops(id)' '(picture.ports[parent].stops(id) && ((id >> 8) as u8 != picture.ports[parent].secondary || id & 0xF8 == 0))'
bug check.rs "18 names the parent" $'= stopped {\n            let ports = vec![picture.holder(port,' $'= stopped {\n            let ports = vec![picture.holder(picture.ports[port].parent.unwrap(),'
bug check.rs "the decoders of the parent in 18" $'= stopped {\n            let ports = vec![picture.holder(port, seen.target)]' $'= stopped {\n            let ports = vec![crate::picture::Named { port: port as u8, ..picture.holder(picture.ports[port].parent.unwrap(), seen.target) }]'
bug check.rs "18 names no ID" 'number: 18, target: Some(seen.target)' 'number: 18, target: None'
bug judge.rs "low and high change places in the line" '" low", " high"' '" high", " low"'
bug judge.rs "own left out of the line" '[" own",' '["",'
bug judge.rs "the words of a line in another order" 'holding.those_of(WORDS).concat()' 'holding.those_of(WORDS).into_iter().rev().collect::<String>()'
bug judge.rs "only the first word said" 'holding.those_of(WORDS).concat()' 'holding.those_of(WORDS)[0]'
bug judge.rs "a claim names memory decoders without Memory Space Enable" 'Ok(port.decoders(' 'Ok(crate::picture::Port { memory_space: true, ..port.clone() }.decoders('
bug judge.rs "a claim takes kind 2 for an ID" 'Ok(port.decoders(target_of(target_kind,' 'Ok(port.decoders(target_of(if target_kind == 2 { 0 } else { target_kind },'
bug judge.rs "a claim takes any other kind for an address" 'Ok(port.decoders(target_of(target_kind,' 'Ok(port.decoders(target_of(target_kind.min(1),'
bug judge.rs "a claim refused writes 0" 'value_call(decoders,' '*decoders = 0; value_call(decoders,'
bug judge.rs "a conversion refused writes 0" 'value_call(decided,' '*decided = 0; value_call(decided,'
bug judge.rs "the program claims takes kind 2 for an ID" 'let target = target_of(target_kind,' 'let target = target_of(if target_kind == 2 { 0 } else { target_kind },'
bug judge.rs "holders in falling order" '(0..picture.ports.len()).filter' '(0..picture.ports.len()).rev().filter'
bug judge.rs "holders that only own the ID left out" 'picture.ports[port].holds(target))' 'picture.ports[port].claims(target))'
bug judge.rs "at most two holders told" 'Ok(holders.map(|port|' 'Ok(holders.take(2).map(|port|'
bug judge.rs "nobody left out" '"nobody\n".to_string()' 'String::new()'
bug judge.rs "nobody said of a picture that does not read" 'Err(refusal) => report_of_refusal(&refusal)' 'Err(_) => "nobody\n".to_string()'
bug judge.rs "IDs cut to 16 bits" 'u16::try_from(target).map_err(|_| Refusal::bare(16))' 'Ok(target as u16)'
bug judge.rs "starts cut to 8 bits" 'let port = start as usize;' 'let port = start as u8 as usize;'
bug judge.rs "IDs printed without leading zeros" '{id:04x}' '{id:x}'
bug patch.rs "31 of the first port before 30" 'judge_header(patch)?;' 'if patch.len() >= 12 && word(patch, 8) as usize >= records.len() { return Err(Fault::Beyond { port: word(patch, 8) as usize, count: records.len() }); } judge_header(patch)?;'
bug patch.rs "32 at a port before 31 at a later one" 'judge_ports(&entries, records.len())?;' 'for entry in entries.iter().take(1) { if entry.offset != 8 + 8 * entries.len() { return Err(Fault::Ends { at: entry.offset }); } } judge_ports(&entries, records.len())?;'
bug patch.rs "an empty patch changes nothing" 'judge_header(patch)?;' 'if patch.is_empty() { return Ok(Vec::new()); } judge_header(patch)?;'
bug patch.rs "8 x count cut to 32 bits, and such a count refused by 31" 'judge_header(patch)?;' 'if patch.len() >= 8 && word(patch, 4) as usize == patch.len() && word(patch, 0) > 0xFFFF && word(patch, 0).wrapping_mul(8) as usize + 8 <= patch.len() { return Err(Fault::Behind { port: 0, before: 0 }); } judge_header(patch)?;'
bug patch.rs "count 0 refused" 'if length < 8 {' 'if length < 16 {'
bug patch.rs "a total below the length accepted" 'total as u64 != length' 'total as u64 > length'
bug patch.rs "a port twice in a row accepted" 'if port <= before' 'if port < before'
bug patch.rs "only the first two ports need rise" 'judge_ports(&entries, records.len())?;' 'judge_ports(&entries[..entries.len().min(2)], records.len())?; for entry in entries.chunks(1) { judge_ports(entry, records.len())?; }'
bug patch.rs "the first port beyond the count passed over" 'judge_ports(&entries, records.len())?;' 'let entries: Vec<Entry> = entries.into_iter().filter(|entry| entry.port != records.len()).collect(); judge_ports(&entries, records.len())?;'
bug patch.rs "port numbers cut to 8 bits" 'word(patch, 8 + 8 * index) as usize' 'word(patch, 8 + 8 * index) as u8 as usize'
bug patch.rs "the end of the vectors not looked at" 'if end != total {' 'if end > total {'
bug patch.rs "the running offset goes on without High" 'let mut end = 8' 'if entries.iter().any(|entry| entry.offset + length_of_all(&records[entry.port]) > total) { return Err(Fault::Ends { at: total }); } let length_of_all = |record: &Record| record.vector_lengths()[..2].iter().sum::<usize>(); let mut end = 8'
bug patch.rs "an offset of a port without vectors not looked at" 'if offset != end {' 'if offset != end && (length_of_all(&records[port]) > 0 || offset > total) {'
bug patch.rs "the vectors stay as they are in the picture" '&patch[entry.offset..entry.offset + length]' '&picture[to..to + length]'
bug patch.rs "put in at the first port's place" 'let to = record.vectors_start()' 'let to = records[0].vectors_start()'
bug patch.rs "only the first port is put in" 'for entry in entries {' 'for entry in entries.into_iter().take(1) {'
bug patch.rs "the last byte of a port's vectors is not put in" 'let length = length_of_all(record);' 'let length = length_of_all(record).saturating_sub(1);'
bug patch.rs "a trial's 16 before 30" 'let (entries, records) = (read_patch' 'read(picture)?; if port as usize >= records_of(picture).len() || mechanism > 2 { return Err(Refusal::bare(16)); } let (entries, records) = (read_patch'
bug patch.rs "a port without bytes lies in the picture" 'entry.port == port as usize' 'entry.port == port as usize && length_of_all(record) > 0'
bug patch.rs "a part begins at the port's first vector" 'at: start + before' 'at: start + before * 0'
bug judge.rs "a refused patch is left out" 'Err(refusal) => Judge { reading: Err(refusal), checked: OnceCell::new() }' 'Err(_) => Judge::new(picture)'
bug picture.rs "bit 3 of ACS Control for P2P Request Redirect" 'record.acs_control() >> 2 & 1 == 1' 'record.acs_control() >> 3 & 1 == 1'
bug picture.rs "bit 1 of ACS Control for P2P Request Redirect" 'record.acs_control() >> 2 & 1 == 1' 'record.acs_control() >> 1 & 1 == 1'
bug picture.rs "bit 0 of ACS Control for P2P Request Redirect" 'record.acs_control() >> 2 & 1 == 1' 'record.acs_control() & 1 == 1'
bug picture.rs "bit 3 of ACS Control as good as P2P Request Redirect" 'record.acs_control() >> 2 & 1 == 1' 'record.acs_control() >> 2 & 3 > 0'
bug picture.rs "ACS Control read at 54" 'self.half_of_edition_2(56)' 'self.half_of_edition_2(54)'
bug picture.rs "ACS Control read at 58" 'self.half_of_edition_2(56)' 'self.half_of_edition_2(58)'
bug picture.rs "ACS Control read with its high byte first" 'self.half_of_edition_2(56)' 'self.half_of_edition_2(56).swap_bytes()'
bug picture.rs "P2P Request Redirect read past the record in edition 1" 'record.acs_control() >> 2 & 1 == 1' '{ let at = record.bytes.as_ptr() as usize - picture.as_ptr() as usize; picture.get(at + 56).is_some_and(|byte| byte >> 2 & 1 == 1) }'
bug picture.rs "the zeros after ACS Control looked for past the record in edition 1" 'Record { edition, bytes: bytes_of(port) }' '{ let bytes = picture[edition.record_start(port)..].get(..60); Record { edition: if bytes.is_some() { Edition::Two } else { edition }, bytes: bytes.unwrap_or(bytes_of(port)) } }'
bug walk.rs "an ID redirected" 'matches!(target, Target::Address(_)) && port.request_redirect' 'port.request_redirect'
bug walk.rs "a configuration request redirected" 'if let Some(port) = start {' 'if let Some(port) = start { if picture.ports[port].request_redirect { let down = walk_configuration(picture, None, id); return Walk { end: down.end, path: [picture.way_up(port), down.path].concat() }; }'
bug walk.rs "redirected though the starting port claims the address" ' && !port.claims(target)' ''
bug walk.rs "not redirected where the port above claims the address" '!port.claims(target)' '!port.claims(target) && port.parent.is_none_or(|above| !picture.ports[above].claims(target))'
bug batch.rs "redirected where the starting port claims the address with the patch only" '=> walk_line(self.trial(),' '=> walk_line(if *kind == 1 && self.trial().reading().is_ok() && self.judge.is_redirected(*start, *target) && !self.trial().is_redirected(*start, *target) { &self.judge } else { self.trial() },'
bug batch.rs "not redirected where the starting port claims the address without the patch only" '=> walk_line(self.trial(),' '=> walk_line(if *kind == 1 && self.trial().is_redirected(*start, *target) && !self.judge.is_redirected(*start, *target) { &self.judge } else { self.trial() },'
bug walk.rs "redirected at every port crossed upward" $'path.push(port);\n                place = picture.ports[port].parent;' 'if is_redirected(picture, port, target) { path.extend(picture.way_up(port)); place = None; continue; } path.push(port); place = picture.ports[port].parent;'
bug walk.rs "the root port not crossed by a redirected packet" '(None, picture.way_up(port))' '(None, { let mut up = picture.way_up(port); up.pop(); up })'
bug walk.rs "the starting port not crossed by a redirected packet" '(None, picture.way_up(port))' '(None, picture.way_up(port).split_off(1))'
bug walk.rs "the way up told from the root port on" '(None, picture.way_up(port))' '(None, picture.way_up(port).into_iter().rev().collect())'
bug walk.rs "stopped at a place with two holders on the way up" '(None, picture.way_up(port))' '{ let up = picture.way_up(port); let top = up.iter().position(|&port| picture.holders_at(picture.ports[port].parent, target).len() > 1).unwrap_or(up.len() - 1); (picture.ports[up[top]].parent, up[..=top].to_vec()) }'
bug walk.rs "turned downward below the first port that claims the address" '(None, picture.way_up(port))' '{ let up = picture.way_up(port); let top = up.iter().position(|&port| picture.ports[port].parent.is_none_or(|above| picture.ports[above].claims(target))).unwrap(); (picture.ports[up[top]].parent, up[..=top].to_vec()) }'
bug walk.rs "rule 5 for a redirected packet that came down" 'from_above = true;' 'from_above = !start.is_some_and(|start| is_redirected(picture, start, target));'
bug walk.rs "a redirected packet not let down where it came up" 'let holders = picture.holders_at(place, target);' 'let mut holders = picture.holders_at(place, target); if place.is_none() && matches!(target, Target::Address(_)) { holders.retain(|holder| path.last() != Some(holder)); }'
bug picture.rs "records of 60 bytes in edition 1" 'Edition::One => 56,' 'Edition::One => 60,'
bug picture.rs "the records of edition 2 begin 56 bytes apart" '&picture[edition.record_start(port)..edition.record_start(port + 1)]' '&picture[16 + 56 * port..][..edition.record_size()]'
bug picture.rs "72 the shortest length in both editions" 'edition.unwrap_or_default().record_start(1)' 'edition.map_or(72, |_| 72)'
bug picture.rs "76 the shortest length in both editions" 'edition.unwrap_or_default().record_start(1)' 'edition.map_or(72, |_| 76)'
bug picture.rs "76 the shortest length of what is neither edition" 'edition.unwrap_or_default()' 'edition.unwrap_or(Edition::Two)'
bug picture.rs "the shortest length by the count" 'picture.len() < shortest_length(edition)' 'picture.len() < edition.unwrap_or_default().record_start(picture.get(2).map_or(1, |&count| count.clamp(1, 64) as usize))'
bug picture.rs "edition 3 accepted as edition 2" '2 => Some(Edition::Two)' '2 | 3 => Some(Edition::Two)'
bug picture.rs "edition 0 accepted as edition 1" '1 => Some(Edition::One)' '0 | 1 => Some(Edition::One)'
bug picture.rs "the edition by its low byte" 'match field {' 'match field & 0xFF {'
bug picture.rs "the vectors must begin as in edition 1" 'word(picture, 12) as usize == records_end' 'word(picture, 12) as usize == 16 + 56 * count'
bug picture.rs "the running offset begins as in edition 1" 'let mut offset = edition.record_start(records.len());' 'let mut offset = edition.record_start(0) + 56 * records.len();'
bug picture.rs "byte 58 not looked at" 'self.after_acs_control() == 0' 'self.after_acs_control() >> 8 == 0'
bug picture.rs "byte 59 not looked at" 'self.after_acs_control() == 0' 'self.after_acs_control() & 0xFF == 0'
bug picture.rs "bytes 58 and 59 of port 0 only" 'refuse_first(8, &records, |record| record.settings_are_good())?;' 'refuse_first(8, &records[..1], |record| record.settings_are_good())?; refuse_first(8, &records, |record| Record { edition: Edition::One, ..*record }.settings_are_good())?;'
bug picture.rs "bytes 58 and 59 join number 9 and not 8" $'|record| record.settings_are_good())?;\n    refuse_first(9, &records, |record| record.starts_are_good())?;' '|record| Record { edition: Edition::One, ..*record }.settings_are_good())?; refuse_first(9, &records, |record| record.starts_are_good() && record.after_acs_control() == 0)?;'
bug patch.rs "P2P Request Redirect cleared at the ports of a patch" 'let to = record.vectors_start()' 'let edition = crate::picture::edition_of(picture).unwrap(); if edition.record_size() > 56 { patched[edition.record_start(entry.port) + 56] &= !4; } let to = record.vectors_start()'
bug patch.rs "vectors lie in the picture as in edition 1" 'None => (Slice::Picture, record.vectors_start() as usize)' 'None => (Slice::Picture, record.vectors_start() as usize - (crate::picture::edition_of(picture).unwrap().record_size() - 56) * records.len())'

# edits of a run that is refused stand where the number is given back, so that the edited program goes on
story_bug history.rs "an old byte compared with the first picture" 'if before[place] != change.old {' 'if first[place] != change.old {'
story_bug history.rs "an old byte compared with the version kept, not with the change before it in the run" 'before[place] = change.new;' ''
story_bug history.rs "a change that changes nothing refused" 'before[place] != change.old' 'change.new == change.old || before[place] != change.old'
story_bug history.rs "37 and 38 change by change" $'if run.iter().any(|change| layout.place(change).is_none()) {\n        return Some(37);\n    }\n    let mut before = changed(first, &layout, held(room, kept));\n    for change in run {\n        let place = layout.place(change).expect("number 37 is behind us");' $'let mut before = changed(first, &layout, held(room, kept));\n    for change in run {\n        let Some(place) = layout.place(change) else { return Some(37) };'
story_bug history.rs "39 before 38" 'let mut before = changed(' 'if kept as u64 + run.len() as u64 > room.len() as u64 { return Some(39); } let mut before = changed('
story_bug history.rs "39 before 37" 'if run.iter().any(|change| layout' 'if kept as u64 + run.len() as u64 > room.len() as u64 { return Some(39); } if run.iter().any(|change| layout'
story_bug history.rs "39 before 1 to 10" $'let layout = match Layout::of(first) {\n        Ok(layout) => layout,\n        Err(number) => return Some(number),' $'if kept as u64 + run.len() as u64 > room.len() as u64 { return Some(39); } let layout = match Layout::of(first) {\n        Ok(layout) => layout,\n        Err(number) => return Some(number),'
story_bug history.rs "a run that fills the room exactly refused" '> room.len() as u64).then_some(39)' '>= room.len() as u64).then_some(39)'
story_bug history.rs "a run one too long for the room accepted" 'Some(number) => number,' 'Some(39) if kept as usize + run.len() == room.len() + 1 => { for (at, change) in (kept as usize..room.len()).zip(run) { room[at] = *change; } *now_kept = kept + run.len() as u32; 0 } Some(number) => number,'
story_bug history.rs "kept and run summed up in 32 bits" 'Some(number) => number,' 'Some(39) if kept.wrapping_add(run.len() as u32) as usize <= room.len() => { *now_kept = kept.wrapping_add(run.len() as u32); 0 } Some(number) => number,'
story_bug history.rs "an empty run accepted with more kept than the room holds" 'Some(number) => number,' 'Some(39) if run.is_empty() => { *now_kept = kept; 0 } Some(number) => number,'
story_bug history.rs "as much of a run added as the room takes" 'Some(number) => number,' 'Some(39) if (kept as usize) < room.len() => { let (start, most) = (kept as usize, room.len() - kept as usize); room[start..].copy_from_slice(&run[..most]); *now_kept = room.len() as u32; 0 } Some(number) => number,'
story_bug history.rs "39 after the room is written" 'Some(number) => number,' 'Some(39) => { for (at, change) in (kept as usize..room.len()).zip(run) { room[at] = *change; } 39 } Some(number) => number,'
story_bug history.rs "38 after the room is written" 'Some(number) => number,' 'Some(38) => { for (at, change) in (kept as usize..room.len()).zip(run) { room[at] = *change; } 38 } Some(number) => number,'
story_bug history.rs "a refusal writes now_kept" 'Some(number) => number,' 'Some(number) => { *now_kept = kept; number }'
story_bug history.rs "a run written at the start of the room" 'let start = kept as usize;' 'let start = 0;'
story_bug history.rs "a run refused after which the version does not read" '.then_some(39)' '.then_some(39).or(Layout::of(&before).err())'
story_bug history.rs "dropped changes count for 38" '&room[..room.len().min(kept as usize)]' 'room'
story_bug history.rs "more kept than the room holds taken for none" '&room[..room.len().min(kept as usize)]' 'room.get(..kept as usize).unwrap_or(&[])'
story_bug history.rs "37 for a kept record that names no byte" 'if run.iter().any(' 'if held(room, kept).iter().chain(run).any('
story_bug history.rs "a kept record that names no byte ends the version" $'if let Some(place) = layout.place(change) {\n            version[place] = change.new;\n        }' $'let Some(place) = layout.place(change) else { break };\n        version[place] = change.new;'
story_bug history.rs "a kept record whose old byte is not met changes nothing" 'if let Some(place) = layout.place(change) {' 'if let Some(place) = layout.place(change).filter(|&place| version[place] == change.old) {'
story_bug history.rs "a change made with the old byte" 'version[place] = change.new;' 'version[place] = change.old;'
story_bug history.rs "of two changes of a byte the older counts" 'for change in changes {' 'for change in changes.iter().rev() {'
story_bug history.rs "a version one change short" '&room[..k as usize]' '&room[..(k as usize).saturating_sub(1)]'
story_bug history.rs "a version one change too long" '&room[..k as usize]' '&room[..(k as usize + 1).min(room.len())]'
story_bug history.rs "a version that does not read refused" 'out[..first.len()].copy_from_slice(&changed(first, &layout, &room[..k as usize]));' 'let whole = changed(first, &layout, &room[..k as usize]); if let Err(number) = Layout::of(&whole) { return number; } out[..first.len()].copy_from_slice(&whole);'
story_bug history.rs "40 for the last version" 'if k > kept || kept' 'if k >= kept || kept'
story_bug history.rs "versions above the last read back as far as the room goes" 'if k > kept || kept' 'if k as usize > room.len() || kept'
story_bug history.rs "40 for a full room" 'kept as usize > room.len() {' 'kept as usize >= room.len() {'
story_bug history.rs "no 40 for more kept than the room holds" 'kept as usize > room.len() {' 'k as usize > room.len() {'
story_bug history.rs "40 before 1 to 10" $'let layout = match Layout::of(first) {\n        Ok(layout) => layout,\n        Err(number) => return number,' $'if k > kept || kept as usize > room.len() { return 40; } let layout = match Layout::of(first) {\n        Ok(layout) => layout,\n        Err(number) => return number,'
story_bug history.rs "23 before 40" 'if k > kept || kept' 'if out.len() < first.len() { return 23; } if k > kept || kept'
story_bug history.rs "23 for a buffer just long enough" 'out.len() < first.len()' 'out.len() <= first.len()'
story_bug history.rs "the rest of a longer buffer cleared" 'out[..first.len()].copy_from_slice(' 'out[first.len()..].fill(0); out[..first.len()].copy_from_slice('
story_bug history.rs "a short buffer filled as far as it goes" 'return 23;' 'out.copy_from_slice(&changed(first, &layout, &room[..k as usize])[..out.len()]); return 23;'
story_bug history.rs "winding back to the last version refused" 'if k > kept {' 'if k >= kept {'
story_bug history.rs "winding back to one above the last accepted" 'if k > kept {' 'if k > kept.saturating_add(1) {'
story_bug history.rs "winding back keeps the old number" '*now_kept = k;' '*now_kept = kept;'
story_bug history.rs "40 writes now_kept" $'if k > kept {\n        return 40;' $'if k > kept {\n        *now_kept = kept; return 40;'
story_bug store.rs "winding back clears the room" 'let number = wind_back(self.kept, k, &mut now);' 'let number = wind_back(self.kept, k, &mut now); if number == 0 { self.room.iter_mut().skip(k as usize).for_each(|change| *change = Change::default()); }'
story_bug store.rs "winding back asks for a first picture that reads" 'let number = wind_back(self.kept, k, &mut now);' 'let number = crate::history::Layout::of(&self.first).err().unwrap_or_else(|| wind_back(self.kept, k, &mut now));'
story_bug store.rs "winding back refused with more kept than the room holds" 'let number = wind_back(self.kept, k, &mut now);' 'let number = if self.kept as usize > self.room.len() { 40 } else { wind_back(self.kept, k, &mut now) };'
story_bug history.rs "a port cut to 8 bits" 'self.ports.get(port as usize)' 'self.ports.get(port as u8 as usize)'
story_bug history.rs "a port cut to 16 bits" 'self.ports.get(port as usize)' 'self.ports.get(port as u16 as usize)'
story_bug history.rs "a port equal to the count accepted" 'Ok(Layout { ports })' 'let past = record_bytes(edition, ports.len()); ports.push([past.start.min(first.len())..past.end.min(first.len()), 0..0]); Ok(Layout { ports })'
story_bug history.rs "a part cut to 8 bits" 'get(part as usize)' 'get(part as u8 as usize)'
story_bug history.rs "a part cut to 16 bits" 'get(part as usize)' 'get(part as u16 as usize)'
story_bug history.rs "every part but 0 taken for the vectors" 'get(part as usize)' 'get(part.min(1) as usize)'
story_bug history.rs "at cut to 8 bits" 'nth(change.at as usize)' 'nth(change.at as u8 as usize)'
story_bug history.rs "at cut to 16 bits" 'nth(change.at as usize)' 'nth(change.at as u16 as usize)'
story_bug history.rs "at equal to the length of a record accepted" 'ports.push([record_bytes(edition, port),' 'let record = record_bytes(edition, port); ports.push([record.start..(record.end + 1).min(first.len()),'
story_bug history.rs "at equal to the length of the vectors accepted" 'vectors..vectors + length]' 'vectors..(vectors + length + 1).min(first.len())]'
story_bug history.rs "records of 56 bytes in edition 2" 'edition.record_start(port)..edition.record_start(port + 1)' 'edition.record_start(port)..edition.record_start(port) + 56'
story_bug history.rs "only the RID vector taken for the vectors" 'record.vector_lengths().iter().sum()' 'record.vector_lengths()[0]'
story_bug history.rs "the vectors without MEM High" 'record.vector_lengths().iter().sum()' 'record.vector_lengths()[..2].iter().sum()'
story_bug history.rs "the vectors of every port from where those of port 0 begin" 'record.vectors_start() as usize' 'records_of(first)[0].vectors_start() as usize'
story_bug history.rs "the start of the vectors taken from the version" 'if let Some(place) = layout.place(change) {' 'let start_in = |version: &[u8]| layout.part(change.port, RECORD).map_or(0, |record| u32::from_le_bytes(version[record.start + 52..][..4].try_into().unwrap()) as usize); if let Some(place) = layout.place(change).map(|place| if change.part == VECTORS { start_in(&version) + change.at as usize } else { place }).filter(|&place| place < version.len()) {'
story_bug history.rs "a change placed by the layout of the version before it" 'if let Some(place) = layout.place(change) {' 'if let Some(place) = Layout::of(&version).as_ref().unwrap_or(layout).place(change) {'
story_bug history.rs "37 by the layout of the version kept" 'if run.iter().any(' 'let kept_version = changed(first, &layout, held(room, kept)); let layout = Layout::of(&kept_version).unwrap_or(layout); if run.iter().any('
story_bug history.rs "only a sound first picture accepted" 'let edition = edition_of(first)' 'if first.len() < 1_024 { if let Err(refusal) = crate::judge::Judge::new(first).check() { return Err(refusal.number as u32); } } let edition = edition_of(first)'

if wanted texts; then
    "$second" pictures "$seed" 150 "$work/pictures" || exit 1
    "$second" patches "$seed" 60 "$work/patches" || exit 1
    texts run_built >"$work/texts.judge"
    texts "$second" | cmp -s - "$work/texts.judge" || { echo "the texts differ without an edit"; exit 1; }
    echo
    echo "$(wc -l <"$work/texts.judge") texts of 150 pictures and 60 trials (seed $seed)"
    echo "| file | what is wrong | found | texts that differ |"
    echo "|---|---|---|---|"
fi
text_bug words.rs "device numbers in decimal" '{:02x}:{:02x}.{}' '{:02x}:{:02}.{}'
text_bug explain.rs "the two holders turned round" 'holder(first), holder(second)' 'holder(second), holder(first)'
text_bug explain.rs "how the second holds it said of the first" 'holder(first), holder(second)' 'in_tree(first) + &manner_text(second.holding), holder(second)'
text_bug explain.rs "how it is held left out of 13 and 14" 'does not claim it", holder(named))' 'does not claim it", in_tree(named))'
text_bug explain.rs "the words for its own ID said of a port with itself" 'Holding { own: false, ..holding }' 'holding'
text_bug explain.rs "memory and prefetchable window exchanged" $'" through its memory window",\n    " through its prefetchable window"' '" through its prefetchable window", " through its memory window"'
text_bug explain.rs "the words for the video range left out" '" through its video range"' '""'
text_bug explain.rs "the words for the MEM High vector and the video range exchanged" $'" through its MEM High vector",\n    " through its video range"' '" through its video range", " through its MEM High vector"'
text_bug explain.rs "a comma between two ways" '.join(" and")' '.join(",")'
text_bug explain.rs "the sentence of 0 without configuration requests" $', no port holds what its parent does not claim, and \\\n     the host\'s configuration requests find every port' ', and no port holds what its parent does not claim'
text_bug explain.rs "18 told as 13" 'if refusal.number == 18' 'if refusal.number == 0'
text_bug explain.rs "18 says held for claimed" 'is claimed by {}' 'is held by {}'
text_bug explain.rs "how it is claimed left out of 18" 'target_text(Target::Id(id)), holder(named))' 'target_text(Target::Id(id)), in_tree(named))'
text_bug explain.rs "Type 0 said of an Unsupported Request" 'Conversion::Unsupported => "answers configuration requests for it with Unsupported Request"' 'Conversion::Unsupported => "makes configuration requests for it Type 0"'
text_bug explain.rs "Unsupported Request said of Type 0" 'Conversion::Type0 => "makes configuration requests for it Type 0"' 'Conversion::Type0 => "answers configuration requests for it with Unsupported Request"'
text_bug explain.rs "18 says what the parent makes of the port's own ID" 'conversion_text(picture, named.port as usize, id)' 'conversion_text(picture, named.port as usize, picture.ports[named.port as usize].own_id)'
text_bug tree.rs "the last sibling drawn as one with more below" '!= Some(&port)' '== Some(&port)'
text_bug tree.rs "the bars of ports above turned round" '[ports_above(picture, parent), vec![parent]]' '[vec![parent], ports_above(picture, parent)]'
text_bug tree.rs "a window of one MiB left out" 'match base <= last' 'match base + 0xF_FFFF < last'
text_bug tree.rs "the video range left out of the drawing" 'windows + &window_text("video", VIDEO_RANGE, 8)' 'windows'
text_bug tree.rs "the video range before the windows" 'windows + &window_text("video", VIDEO_RANGE, 8)' 'window_text("video", VIDEO_RANGE, 8) + &windows'
text_bug tree.rs "the video range drawn with memory space off" 'return "; memory space off".to_string();' 'return "; memory space off".to_string() + &if port.vga_enable { window_text("video", VIDEO_RANGE, 8) } else { String::new() };'
text_bug tree.rs "16 digits for the video range behind a window of 64 bits" 'window_text("video", VIDEO_RANGE, 8)' 'window_text("video", VIDEO_RANGE, digits)'
text_bug tree.rs "the last entry not counted" '(0..vector.size)' '(0..vector.size - 1)'
text_bug tree.rs "ARI said of any port" 'if port.ari {' 'if !port.ari {'
text_bug explain.rs "the root port left out of the tree above" 'Some(Kind::Root) => text,' 'Some(Kind::Root) => String::new(),'
text_bug explain.rs "a first child called a later one" 'records[..port].iter().any' 'records[..=port].iter().any'
text_bug explain.rs "codes of a vector that is not supported" '} else if !setting.codes_are_good()' '} if !setting.codes_are_good()'
text_bug explain_trial.rs "count and total exchanged in 30" 'let (count, total)' 'let (total, count)'
text_bug explain_trial.rs "the longest length that 30 tells not told" 'length > LONGEST_TOLD' 'length >= LONGEST_TOLD'
text_bug explain_trial.rs "31 tells the last port of the picture for their count" 'counted(count, "port"))' 'counted(count - 1, "port"))'
text_bug patch.rs "the wrong port of a pair in 31" 'Err(Fault::Behind { port, before })' 'Err(Fault::Behind { port: before, before: port })'
text_bug patch.rs "the running offset and the offset exchanged in 32" 'at: offset, end_before: end' 'at: end, end_before: offset'
text_bug patch.rs "32 tells where the patch ends for where the vectors do" 'Fault::Ends { at: end }' 'Fault::Ends { at: total }'
# edits of the next rows: a parent that does not claim the ID without the patch is said to answer Unsupported Request
unpatched_conversion='Ok(patched) => {
    let (old, text) = (crate::judge::Judge::new(picture), explain(&patched));
    let parent_claims = |port: u8| {
        let ports = &old.reading().unwrap().ports;
        ports[ports[port as usize].parent.unwrap()].claims_id(ports[port as usize].own_id)
    };
    match crate::judge::Judge::new(&patched).check() {
        Err(found) if found.number == 15 && !parent_claims(found.ports[0].port) => {
            text.replace("passes configuration requests for it on as Type 1", "answers configuration requests for it with Unsupported Request")
        }
        _ => text,
    }
}'
# the same of 18: a parent that does not claim the ID without the patch, so that 13 is given
unpatched_18='Ok(patched) => {
    let (before, after) = (crate::judge::Judge::new(picture).check(), crate::judge::Judge::new(&patched).check());
    match (before, after) {
        (Err(before), Err(after)) if before.number == 13 && after.number == 18 => {
            explain(&patched).replace("makes configuration requests for it Type 0", "answers configuration requests for it with Unsupported Request")
        }
        _ => explain(&patched),
    }
}'
text_bug explain_trial.rs "the unpatched picture's conversion said in 15" 'Ok(patched) => explain(&patched)' "$unpatched_conversion"
text_bug explain_trial.rs "the unpatched picture's conversion said in 18" 'Ok(patched) => explain(&patched)' "$unpatched_18"
text_bug explain_trial.rs "the unpatched picture's sentence" 'Ok(patched) => explain(&patched)' 'Ok(patched) => crate::judge::Judge::new(&patched).report() + explain(picture).lines().last().unwrap() + "\n"'
text_bug tree.rs "redirect said of ports that are no device ports" 'if is_device_port && port.request_redirect {' 'if port.request_redirect {'
text_bug picture.rs "redirect said by bit 3" 'record.acs_control() >> 2 & 1 == 1' 'record.acs_control() >> 3 & 1 == 1'
text_bug tree.rs "redirect before ARI" $'if port.ari {\n        text += ", ARI";\n    }\n    if is_device_port && port.request_redirect {\n        text += ", redirect";\n    }' $'if is_device_port && port.request_redirect {\n        text += ", redirect";\n    }\n    if port.ari {\n        text += ", ARI";\n    }'
text_bug explain.rs "the bytes after ACS Control left out of the sentence of 8" 'if record.after_acs_control() != 0 {' 'if false {'
text_bug explain.rs "the bytes after ACS Control told only where nothing else is wrong" 'if record.after_acs_control() != 0 {' 'if text.is_empty() && record.after_acs_control() != 0 {'
text_bug explain.rs "byte 58 told before byte 59" 'hold {:04x}", record.after_acs_control()' 'hold {:04x}", record.after_acs_control().swap_bytes()'
text_bug explain.rs "76 left out of the sentence of 1" ' (76 in edition 2)' ''
echo "$found of $bugs found"
[ "$found" -eq "$bugs" ]
