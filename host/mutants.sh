#!/bin/sh
# Tests the differential tests: puts one fault at a time into the stand-in and demands that the random part of host/diff
# finds it. First the stand-in without a fault has to pass, or nothing that follows would tell anything. Each run has a
# time limit, LIMIT seconds (300 unless set): the stand-in without a fault has to end in it, and a fault that keeps the
# tests from ending in it is found. Takes some minutes, so it is not in the gate. Needs host/build.sh to have run.
# Usage: host/mutants.sh [NAME]
set -eu
cd "$(dirname "$0")/.."
out=target/host
work=$out/mutant
limit=${LIMIT:-300}
only=${1:-}
passed=0
failed=0
command -v timeout > /dev/null || { echo "host/mutants.sh: no timeout" >&2; exit 1; }

# The stand-in's files, to be changed.
copy() { rm -rf "$work" && mkdir -p "$work" && cp host/reference/*.rs "$work"; }

build() {
    rustc --edition 2021 -O --cap-lints allow --cfg stand_in --crate-type staticlib --crate-name mutant \
        "$work/lib.rs" -o "$work/libmutant.a" \
        && rustc --edition 2021 -C opt-level=1 host/diff.rs --extern reference="$out/libreference.rlib" \
            -C link-arg="$work/libmutant.a" -o "$work/diff"
}

# Runs the tests on what was built; $ended says how that went.
run() {
    status=0
    timeout "$limit" "$work/diff" --random > "$work/log" 2>&1 || status=$?
    case $status in
    0) ended=passed ;;
    124) ended="the tests did not end in $limit s" ;;
    *) ended=$(tail -n 1 "$work/log") ;;
    esac
}

fail() {
    echo "FAILED  $1"
    failed=$((failed + 1))
}

# name, file of host/reference, sed command; the first twelve are document 01's own list of faults
mutant() {
    [ "${only:-$1}" = "$1" ] || return 0
    copy
    sed -i "$3" "$work/$2"
    if cmp -s "$work/$2" "host/reference/$2"; then
        fail "$1: the edit changed nothing"
        return 0
    fi
    if ! build; then
        fail "$1: the edit does not compile"
        return 0
    fi
    run
    if [ "$ended" = passed ]; then
        fail "$1: not found"
        return 0
    fi
    echo "found   $1: $ended"
    passed=$((passed + 1))
}

copy
build
run
if [ "$ended" != passed ]; then
    echo "host/mutants.sh: the stand-in without a fault has to pass first: $ended" >&2
    exit 1
fi
echo "passed  the stand-in without a fault: $(sed -n 's/^counted: //p' "$work/log")"

mutant one_path_for_all_tasks state.rs 's/record(task) + PATH + 2 \* depth/record(0) + PATH + 2 * depth/'
mutant output_8_writable drive.rs 's/12 | 13 | 20 | 23 => /8 | &/'
mutant high_start_at_load_is_a_slope state.rs 's/state.set_start_level(1)/state.set_start_level(0)/'
mutant wait_ends_at_526 state.rs 's/self.turns as u64 \* drive.cycle_length() >=/(self.turns as u64 + 1) * drive.cycle_length() >/'
mutant marks_without_depth walk.rs 's/ + place.depth\];/];/'
mutant always_17 engine.rs 's/if header != \*state.header()/if true/'
mutant pointer_never_moves engine.rs 's/Onward::Next => state.set_block(task, next)/Onward::Next => ()/'
mutant only_the_first_block engine.rs 's/let effect = perform(state, &turn);/let effect = if place.block == 0 { perform(state, \&turn) } else { Ok(crate::effect::Effect { onward: Onward::Next, request: crate::answer::Request::None }) };/'
mutant refuses_everything loader.rs 's/let verdict = judge_program(&header, blocks, marks);/let verdict = Verdict::at(PAST_END, 0);/'
mutant accepts_everything loader.rs 's/let verdict = judge_program(&header, blocks, marks);/let verdict = Verdict::at(SUCCESS, 0);/'
mutant eighteen_before_a_start engine.rs 's/if state.status(task) != RUNNING/if state.status(task) != ENDED/'
mutant fourteen_with_room_enough image.rs 's/if out.len() < length/if out.len() <= length/'
mutant foreign_51_let_pass walk.rs 's/block\[0\] == 0x51 \&\& block\[1\] != 0/block[0] == 0x02 \&\& block[1] != 0/'
mutant stop_1F_in_BIAS_alone command.rs 's/plain(0x1F, 3, B | P)/plain(0x1F, 3, B)/'
mutant bit_jump_on_637_plus drive.rs 's/own(self.kind != TYPE_637_PLUS)/own(true)/'
mutant address_of_81_turned_round command.rs 's/\[block\[7\], block\[6\] & 0x0F\]/[block[6] \& 0x0F, block[7]]/'
mutant positive_compares_values effect.rs 's/6 => first.wrapping_sub(second) >= 0/6 => first >= second/'
mutant odd_wait_not_rounded effect.rs 's/time - time % 2/time/'
mutant wait_59_counts_ms effect.rs 's/Ok(2 \* word(block, 1) as u32)/Ok(word(block, 1) as u32)/'
mutant level_not_noted_when_halted engine.rs 's/if place.task == BIAS {/if place.task == BIAS \&\& effect.is_ok() {/'
mutant level_noted_by_the_PLC engine.rs 's/if place.task == BIAS {/if place.task == PLC { state.set_start_level(start) }\n    &/'
mutant start_mark_stays effect.rs 's/state.set_start_mark(0);//'
mutant entry_left_above_the_depth state.rs 's/self.put_word(entry, 0);//'
mutant restart_keeps_the_path engine.rs 's/Onward::Restart => state.put_task(task, RUNNING, state.start(task))/Onward::Restart => state.set_block(task, state.start(task))/'
mutant start_keeps_the_start_block engine.rs 's/state.set_start(other, block);//'
mutant least_by_task_first walk.rs 's/(place.block, place.task, place.depth)/(place.task, place.block, place.depth)/'
mutant least_by_depth_before_task walk.rs 's/(place.block, place.task, place.depth)/(place.block, place.depth, place.task)/'
mutant last_flag_not_for_86 command.rs 's/block\[3\] as u32 <= 256/block[3] as u32 <= 255/'
mutant last_byte_not_looked_at state.rs 's/together(&bytes\[UNUSED..\])/together(\&bytes[UNUSED..STATE_LENGTH - 1])/'
mutant layout_number_not_tested state.rs 's/bytes\[LAYOUT_AT\] == LAYOUT/true/'
mutant layout_number_at_most_5 state.rs 's/bytes\[LAYOUT_AT\] == LAYOUT/bytes[LAYOUT_AT] <= 5/'
mutant layout_number_3_at_load state.rs 's/bytes\[LAYOUT_AT\] = LAYOUT;/bytes[LAYOUT_AT] = 3;/'
mutant wait_due_is_a_state state.rs 's/ \&\& !wait.due(&header.drive)//'
mutant wait_anywhere engine.rs 's/matches!(block\[0\], 0x59 | 0x5A)/true/'
mutant quotient_rounded_down effect.rs 's/_ => of(y).wrapping_div(of(z))/_ => of(y).wrapping_div_euclid(of(z))/'
mutant call_refused_at_depth_4 walk.rs 's/place.depth == MOST_DEPTH/place.depth >= MOST_DEPTH - 1/'
mutant call_at_depth_5 walk.rs 's/place.depth == MOST_DEPTH/place.depth > MOST_DEPTH/'
mutant state_of_depth_6 state.rs 's/depth <= MOST_DEPTH$/depth <= MOST_DEPTH + 1/; s/2 \* depth..at + TIME/2 * depth.min(MOST_DEPTH)..at + TIME/'
mutant entry_past_the_depth state.rs 's/together(&bytes\[at + PATH + 2 \* depth..at + TIME\]) == 0/true/'
mutant marks_of_26999 loader.rs 's/marks.len() < MARKS_LENGTH/marks.len() < MARKS_LENGTH - 1/'
mutant call_at_the_end walk.rs 's/row.next \&\& place.block + 1/row.next \&\& row.code != 0x52 \&\& place.block + 1/'
mutant speed_as_wide_as_a_ramp effect.rs 's/within(content(), MOST_SPEED)/within(content(), MOST_RAMP)/'
mutant count_always_at_byte_5 image.rs 's/bad(count_at)/bad(5)/'
mutant level_as_given effect.rs 's/u8::from(turn.inputs\[pin as usize\] != 0)/turn.inputs[pin as usize]/'
mutant state_written_when_refused loader.rs 's/if verdict.number == SUCCESS {/if verdict.number != FORBIDDEN {/'
mutant all_marks_wiped walk.rs 's/&mut marks\[..MARKS_LENGTH\]/\&mut marks[..]/'
mutant ramp_of_0F_is_acceleration effect.rs 's/if code == 0x0F { state.deceleration() }/if code == 0x0F { state.acceleration() }/'
mutant slope_without_memory effect.rs 's/turn.start == 1 \&\& state.start_level() == 0/turn.start == 1/'
mutant passes_right_behind_a_move effect.rs 's/ \&\& state.moved() == 0//'
mutant passes_on_ramp_ended_alone effect.rs 's/turn.ramp_ended \&\& turn.in_window/turn.ramp_ended/'
mutant passes_on_in_window_alone effect.rs 's/turn.ramp_ended \&\& turn.in_window/turn.in_window/'
mutant note_left_by_58 engine.rs 's/note(state, start, &effect);/let was = state.moved();\n        &\n        if block[0] == 0x58 { state.set_moved(was) }/'
mutant note_of_moves_to_and_by_alone engine.rs 's/Request::Move { .. }/Request::Move { kind: crate::answer::Move::To | crate::answer::Move::By, .. }/'
mutant note_set_by_a_stop engine.rs 's/matches!(effect.request, Request::Move { .. })/effect.request != Request::None/'
mutant note_set_by_a_waiting_move engine.rs 's/note(state, start, &effect);/&\n        if matches!(block[0], 0x00 | 0x01 | 0x03 | 0x04) { state.set_moved(1) }/'
mutant note_cleared_by_the_PLC engine.rs 's/if place.task == BIAS {/if place.task == PLC { state.set_moved(0) }\n    &/'
mutant note_cleared_by_57 engine.rs 's/state.set_start(other, block);/&\n            if other == BIAS { state.set_moved(0) }/'
mutant note_cleared_by_a_halt engine.rs 's/if let Ok(effect) = effect {/if effect.is_err() { state.set_moved(0) }\n    &/'
mutant note_cleared_by_a_refused_step engine.rs 's/return Answer::refused(Verdict::at(NOT_RUNNING, 0));/if task == BIAS { state.set_moved(0) }\n        &/'
mutant note_set_at_load state.rs 's/state.set_start_level(1);/&\n        state.set_moved(1);/'
mutant note_of_2_is_a_state state.rs 's/together(&bytes\[START_MARK..STARTS\]) <= 1/together(\&bytes[START_MARK..MOVED]) <= 1 \&\& bytes[MOVED] <= 2/'
mutant six_for_a_missing_board command.rs 's/OnBoard => return BOARD_MISSING/OnBoard => return NOT_ON_DRIVE/'
mutant six_where_a_board_can_be_exchanged drive.rs 's/board <= most_board(self.kind)/held == 0 \&\& &/'
mutant board_missing_on_a_631 drive.rs 's/if self.kind == TYPE_631 {/if self.kind == TYPE_631 \&\& pin < 90 {/; s/board <= most_board(self.kind)/&.max(1)/'
mutant board_missing_for_an_input_as_an_output drive.rs 's/109 | 110 => /101 | 102 | 106..=108 if self.slot_b != RP_EA5 => self.on_board(self.slot_b, RP_EA5),\n            &/'
mutant board_of_637f_missing_on_637_plus drive.rs 's/board <= most_board(self.kind)/& || self.kind == TYPE_637_PLUS/'
mutant seven_before_a_missing_board command.rs 's/Presence::OnBoard => /Presence::OnBoard if !row.in_range(header, block) => return BAD_OPERAND,\n        &/'
mutant step_without_the_board engine.rs 's/command::judge(&header, block) == SUCCESS/matches!(command::judge(\&header, block), SUCCESS | BOARD_MISSING)/'
mutant step_answers_23 engine.rs 's/None => Answer::refused(Verdict::at_place(OTHER_IMAGE, place))/None => Answer::refused(Verdict::at_place(match image::read(image) { Ok((header, blocks)) if header == *state.header() \&\& command::judge(\&header, image::block(blocks, place.block)) == BOARD_MISSING => BOARD_MISSING, _ => OTHER_IMAGE }, place))/'
mutant speed_of_12001_read effect.rs 's/within(content(), MOST_SPEED)/within(content(), MOST_SPEED + 1)/'
mutant ramp_of_64001_read effect.rs 's/within(content(), MOST_RAMP)/within(content(), MOST_RAMP + 1)/'
mutant ramp_of_64000_not_read effect.rs 's/within(content(), MOST_RAMP)/within(content(), MOST_RAMP - 1)/'
mutant wait_of_65536_read effect.rs 's/(0..=MOST_VARIABLE_WAIT)/(0..=MOST_VARIABLE_WAIT + 1)/'
mutant wait_of_minus_1_read effect.rs 's/(0..=MOST_VARIABLE_WAIT)/(-1..=MOST_VARIABLE_WAIT)/'
mutant ramp_of_64001_loaded command.rs 's/let ramp = 1..=MOST_RAMP;/let ramp = 1..=MOST_RAMP + 1;/'
mutant address_at_the_count_loaded command.rs 's/(named as usize) < header.count/(named as usize) <= header.count/'
mutant speed_of_12001_is_a_state state.rs 's/(1..=MOST_SPEED)/(1..=MOST_SPEED + 1)/'
mutant first_landing_block_only walk.rs 's/in header.landings.blocks() {/in header.landings.blocks().iter().take(1) {/'
mutant landing_one_deeper walk.rs 's/0x56 => self.reach(Place { block: landing, /&depth: (place.depth + 1).min(MOST_DEPTH), /'
mutant jump_by_variable_to_the_next_block_too command.rs 's/turning(plain(0x56, 1, ALL))/plain(0x56, 1, ALL)/'
mutant pointer_at_the_depth_of_its_task walk.rs 's/block: landing, depth: 0 }/block: landing, depth: place.depth }/'
mutant pointer_in_its_own_task walk.rs 's/0x5B => self.reach(Place { task: BIAS, /0x5B => self.reach(Place { task: place.task, /'
mutant pointer_leads_nowhere_else walk.rs 's/        if row.next {/        if row.next \&\& row.code != 0x5B {/'
mutant pointer_at_the_end walk.rs 's/row.next \&\& place.block + 1/row.next \&\& row.code != 0x5B \&\& place.block + 1/; s/        if row.next {/        if row.next \&\& place.block + 1 < self.header.count {/'
mutant pointer_in_BIAS command.rs 's/plain(0x5B, 1, P | M)/plain(0x5B, 1, ALL)/'
mutant pointer_keeps_the_path engine.rs 's/go_on(state, place.task, effect.onward);/if let (0x5B, Onward::Start(_, to)) = (block[0], effect.onward) { state.set_block(place.task, state.block(place.task) + 1); state.set_status(BIAS, RUNNING); state.set_block(BIAS, to); state.set_wait(BIAS, NO_WAIT) } else { & }/'
mutant pointer_keeps_the_wait engine.rs 's/go_on(state, place.task, effect.onward);/let wait = state.wait(BIAS);\n            &\n            if block[0] == 0x5B { state.set_wait(BIAS, wait) }/'
mutant pointer_leaves_an_ended_BIAS engine.rs 's/go_on(state, place.task, effect.onward);/let was = state.status(BIAS);\n            &\n            if block[0] == 0x5B \&\& was == ENDED { state.set_status(BIAS, was) }/'
mutant pointer_leaves_a_halted_BIAS engine.rs 's/go_on(state, place.task, effect.onward);/let was = state.status(BIAS);\n            &\n            if block[0] == 0x5B \&\& was == HALTED { state.set_status(BIAS, was) }/'
mutant pointer_clears_the_note engine.rs 's/go_on(state, place.task, effect.onward);/&\n            if block[0] == 0x5B { state.set_moved(0) }/'
mutant no_landing_halts_BIAS engine.rs 's/state.set_status(place.task, HALTED)/state.set_status(if number == NO_LANDING { BIAS } else { place.task }, HALTED)/'
mutant no_landing_told_as_20 effect.rs 's/ok_or(NO_LANDING)/ok_or(BAD_CONTENT)/'
mutant level_not_noted_by_no_landing engine.rs 's/if place.task == BIAS {/if place.task == BIAS \&\& !matches!(effect, Err(NO_LANDING)) {/'
mutant landing_of_sixteen_bits effect.rs 's/\*\*landing as i32 == content/**landing == content as u16/'
mutant first_landing_block_taken effect.rs 's/\*\*landing as i32 == content/content >= 0/'
mutant unlisted_block_lands effect.rs 's/held.copied().ok_or(NO_LANDING)/held.copied().or((0..state.header().count as i32).contains(\&content).then_some(content as u16)).ok_or(NO_LANDING)/'
mutant equal_landing_blocks image.rs 's/block > \*last as usize/block >= *last as usize/'
mutant landing_block_at_the_count image.rs 's/block >= count {/block > count {/'
mutant sixty_five_landing_blocks_read image.rs 's/blocks: \[u16; MOST_LANDINGS\]/blocks: [u16; MOST_LANDINGS + 1]/; s/blocks: \[0; MOST_LANDINGS\]/blocks: [0; MOST_LANDINGS + 1]/; s/number.value > MOST_LANDINGS/number.value > MOST_LANDINGS + 1/'
mutant sixty_five_landing_blocks_written image.rs 's/blocks: \[u16; MOST_LANDINGS\]/blocks: [u16; MOST_LANDINGS + 1]/; s/blocks: \[0; MOST_LANDINGS\]/blocks: [0; MOST_LANDINGS + 1]/; s/|| number > MOST_LANDINGS/|| number > MOST_LANDINGS + 1/'
mutant sixty_three_landing_blocks_at_most image.rs 's/number.value > MOST_LANDINGS/number.value > MOST_LANDINGS - 1/'
mutant landing_list_before_the_start image.rs 's/    if start.value >= count.value {/    if start.value >= count.value \&\& format.value == 1 {/; s/    let drive = Drive { kind: kind.value/    if start.value >= count.value { return Err(Verdict::at(BAD_HEADER, start.at)) }\n&/'
mutant landing_list_of_format_1 image.rs 's/FORMAT => (Landings::NONE, count.behind)/FORMAT if image.get(count.behind) != Some(\&0) => (Landings::NONE, count.behind)/'
mutant half_a_landing_block_written image.rs 's/landings.len() % 2 == 1 || //'
mutant landing_count_written_early image.rs 's/numbers.push(number as u32);/numbers.insert(5, number as u32);/'
mutant landing_place_of_the_writer image.rs 's/^            return Verdict::at(BAD_LANDINGS, length_of(&numbers));/            return Verdict::at(BAD_LANDINGS, length_of(\&numbers[..7]));/'
mutant either_format_by_either_writer image.rs 's/if self.format != format {/if self.format < FORMAT || self.format > FORMAT_LANDINGS {/'
mutant landing_list_not_compared engine.rs 's/if header != \*state.header()/if (image::Header { landings: state.header().landings, ..header }) != *state.header()/'
mutant format_not_compared engine.rs 's/if header != \*state.header()/if (image::Header { format: state.header().format, ..header }) != *state.header()/'
mutant landing_list_not_kept state.rs 's/state.put_landings(header.landings.blocks());//'
mutant landing_entry_past_the_count state.rs 's/(together(past) == 0).then_some(list)/Some(list)/'
mutant last_landing_entry_not_looked_at state.rs 's/split_at(2 \* number);/split_at(2 * number);\n    let past = \&past[..past.len().saturating_sub(1)];/'
mutant landings_in_a_state_of_format_1 state.rs 's/ || format == FORMAT \&\& number != 0//'
mutant landing_list_of_a_state_not_judged state.rs 's/as usize, count)?;/as usize, MOST_BLOCKS);/'
echo "$passed found, $failed failed"
if [ $((passed + failed)) -eq 0 ]; then
    echo "host/mutants.sh: no fault is named '$only'" >&2
    exit 1
fi
[ "$failed" -eq 0 ]
