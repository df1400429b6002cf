//! Faulty books: plainbook's `book.rs` with a few words altered. Each must be found by the tests.

pub struct Fault {
    /// The name of its test.
    pub name: &'static str,
    /// The most frames that may be needed to show it.
    pub frames: usize,
    /// What to find in `book.rs`, once, and what to put there.
    pub changes: &'static [(&'static str, &'static str)],
}

/// Most faults need no more frames than this.
const FEW: usize = 6;

const fn fault(
    name: &'static str,
    frames: usize,
    changes: &'static [(&'static str, &'static str)],
) -> Fault {
    Fault {
        name,
        frames,
        changes,
    }
}

pub const FAULTS: &[Fault] = &[
    // The slips that 01 names.
    fault(
        "ts_low_is_taken_as_inside",
        FEW,
        &[("self.ts_low < ts", "self.ts_low <= ts")],
    ),
    fault(
        "ts_equal_to_the_replay_counter_is_taken_as_live",
        FEW,
        &[("let live = ts > key", "let live = ts >= key")],
    ),
    fault(
        "both_counters_have_the_live_limit",
        FEW,
        &[("load, PLAYBACK_LIMIT)", "load, LIVE_LIMIT)")],
    ),
    fault(
        "both_counters_have_the_playback_limit",
        FEW,
        &[("load, LIVE_LIMIT)", "load, PLAYBACK_LIMIT)")],
    ),
    fault(
        "an_add_to_the_purse_wraps",
        FEW,
        &[(
            "_ => Some((load.cost, changed(self.purse, load, PURSE_LIMIT)?)),",
            "_ if load.add => Some(self.purse.wrapping_add(load.amount))
                .filter(|sum| *sum <= PURSE_LIMIT)
                .map(|sum| (load.cost, sum)),
            _ => Some((load.cost, changed(self.purse, load, PURSE_LIMIT)?)),",
        )],
    ),
    fault(
        "an_add_to_a_counter_wraps",
        FEW,
        &[(
            "before.checked_add(load.amount)?",
            "before.wrapping_add(load.amount)",
        )],
    ),
    fault(
        "a_load_with_17_leaves_the_purse_raised",
        FEW,
        &[(
            "return self.as_held(Code::PastLimit, place);",
            "let refused = self.as_held(Code::PastLimit, place);
            if load.add && load.name.spe <= TOKENS_PLAYBACK {
                self.purse = self.purse.wrapping_add(load.amount);
            }
            return refused;",
        )],
    ),
    fault(
        "the_key_of_a_load_with_17_is_stored",
        FEW,
        &[(
            "return self.as_held(Code::PastLimit, place);",
            "if let Some(bytes) = carried {
                self.keys[usize::from(self.rights[place].key_place)].bytes = *bytes;
            }
            return self.as_held(Code::PastLimit, place);",
        )],
    ),
    fault(
        "0a_deletes_one_interval_only",
        FEW,
        &[
            (
                "=> return self.delete_key(load.name.id),",
                "=> return self.delete_key(&load.name),",
            ),
            (
                "fn delete_key(&mut self, id: u64)",
                "fn delete_key(&mut self, name: &Name)",
            ),
            (
                "self.find_key(id) else {
            return refusal(Code::NotHeld)",
                "self.find_key(name.id) else {
            return refusal(Code::NotHeld)",
            ),
            (
                "== key_place {
                *right = FREE_RIGHT;",
                "== key_place && right.ts_low == name.ts_low {
                *right = FREE_RIGHT;",
            ),
            (
                "        self.keys[key_place] = FREE_KEY;
        reply(",
                "        self.keys[key_place].rights = left;
        if left == 0 {
            self.keys[key_place] = FREE_KEY;
        }
        reply(",
            ),
        ],
    ),
    fault(
        "the_first_fitting_right_stops_the_walk_though_it_cannot_pay",
        FEW,
        &[(
            "refused = Code::NothingPays;",
            "return refusal(Code::NothingPays);",
        )],
    ),
    // Places.
    fault(
        "a_new_right_takes_the_highest_free_place",
        FEW,
        &[(
            ".position(|right| right.key_place == NO_PLACE)",
            ".rposition(|right| right.key_place == NO_PLACE)",
        )],
    ),
    fault(
        "one_right_place_is_missing",
        32,
        &[("RIGHT_PLACES: usize = 32", "RIGHT_PLACES: usize = 31")],
    ),
    fault(
        "one_key_place_is_missing",
        16,
        &[("KEY_PLACES: usize = 16", "KEY_PLACES: usize = 15")],
    ),
    fault(
        "one_key_place_is_too_many",
        17,
        &[("KEY_PLACES: usize = 16", "KEY_PLACES: usize = 17")],
    ),
    // The key buffer and the key.
    fault(
        "a_refusal_writes_the_key_buffer",
        FEW,
        &[(
            "        refusal(refused)",
            "        *lent = key.bytes;
        refusal(refused)",
        )],
    ),
    fault(
        "every_call_clears_the_key_buffer",
        FEW,
        &[(
            "match frame.first() {",
            "lent.fill(0);
        match frame.first() {",
        )],
    ),
    fault(
        "a_buffer_of_17_bytes_is_taken",
        FEW,
        &[(
            "let Ok(lent) = <&mut [u8; 16]>::try_from(key)",
            "let taken = if key.len() == 17 { 16 } else { key.len() };
        let Ok(lent) = <&mut [u8; 16]>::try_from(&mut key[..taken])",
        )],
    ),
    fault(
        "a_load_of_a_held_right_leaves_the_old_key",
        FEW,
        &[(
            "self.keys[usize::from(self.rights[place].key_place)].bytes = *bytes;",
            "let _ = bytes;",
        )],
    ),
    fault(
        "the_last_deletion_leaves_the_key",
        FEW,
        &[("self.keys[key_place].rights -= 1;", "")],
    ),
    fault(
        "a_freed_key_place_keeps_the_replay_counter",
        FEW,
        &[(
            "self.keys[key_place] = FREE_KEY;
        }",
            "let replay_counter = self.keys[key_place].replay_counter;
            self.keys[key_place] = Key { replay_counter, ..FREE_KEY };
        }",
        )],
    ),
    // Charging and the replay counter.
    fault(
        "a_playback_grant_sets_the_replay_counter",
        FEW,
        &[("if live {", "if live || ts < key.replay_counter {")],
    ),
    fault(
        "ts_high_is_taken_as_outside",
        FEW,
        &[("ts <= self.ts_high", "ts < self.ts_high")],
    ),
    fault(
        "a_purse_equal_to_the_cost_cannot_pay",
        FEW,
        &[(
            "if *account < price {",
            "if *account < price || (*account == price && price > 1) {",
        )],
    ),
    fault(
        "an_empty_purse_cannot_pay_cost_0",
        FEW,
        &[(
            "if *account < price {",
            "if *account < price || *account == 0 {",
        )],
    ),
    fault(
        "the_cost_of_a_held_right_stays",
        FEW,
        &[(
            "self.rights[place].value = value;",
            "if load.name.spe >= COUNTED_LIVE {
            self.rights[place].value = value;
        }",
        )],
    ),
    // Replies.
    fault(
        "a_grant_shows_the_counter_before",
        FEW,
        &[
            (
                "if right.pay(&mut self.purse) {",
                "let before = right.value;
                if right.pay(&mut self.purse) {",
            ),
            (
                "return self.as_held(Code::Granted, place);",
                "let mut granted = self.as_held(Code::Granted, place);
                    granted[2..6].copy_from_slice(&before.to_be_bytes());
                    return granted;",
            ),
        ],
    ),
    fault(
        "a_report_shows_the_counter_before",
        FEW,
        &[
            (
                "    value: u32,
}

const FREE_RIGHT",
                "    value: u32,
    before: u32,
}

const FREE_RIGHT",
            ),
            (
                "    value: 0,
};",
                "    value: 0,
    before: 0,
};",
            ),
            (
                "            value,
        };",
                "            value,
            before: value,
        };",
            ),
            (
                "self.rights[place].value = value;",
                "self.rights[place].value = value;
        self.rights[place].before = value;",
            ),
            (
                "let (account, price) = match self.spe {",
                "self.before = self.value;
        let (account, price) = match self.spe {",
            ),
            (
                "self.as_held(Code::Reported, place),",
                "{
                let mut reported = self.as_held(Code::Reported, place);
                reported[2..6].copy_from_slice(&self.rights[place].before.to_be_bytes());
                reported
            }",
            ),
        ],
    ),
    fault(
        "a_report_takes_a_token",
        FEW,
        &[
            ("fn report(&self", "fn report(&mut self"),
            (
                "self.as_held(Code::Reported, place),",
                "{
                let reported = self.as_held(Code::Reported, place);
                self.purse = self.purse.saturating_sub(1);
                reported
            }",
            ),
        ],
    ),
    fault(
        "a_17_for_a_new_right_hides_the_purse",
        FEW,
        &[(
            "reply(Code::PastLimit, NO_PLACE, 0, self.purse, 0)",
            "refusal(Code::PastLimit)",
        )],
    ),
    fault(
        "the_mark_is_tested_after_the_id",
        FEW,
        &[(
            "0x00 => refusal(Code::BadMark),",
            "0x00 if self.find_key(id_of(frame)).is_none() => refusal(Code::NoKey),
            0x00 => refusal(Code::BadMark),",
        )],
    ),
    // The reader and the limits.
    fault(
        "a_spare_flag_bit_is_taken",
        FEW,
        &[(
            "if flags > FLAG_ADD | FLAG_KEY {",
            "if flags > 0x83 || flags & 0x7C != 0 {",
        )],
    ),
    fault(
        "the_cost_of_0a_is_not_tested",
        FEW,
        &[("fields[17..] == [0; 9]", "fields[17..22] == [0; 5]")],
    ),
    fault(
        "the_limit_itself_is_refused",
        FEW,
        &[("(after <= limit)", "(after < limit)")],
    ),
    fault(
        "a_timestamp_at_the_end_of_the_numbers_panics",
        FEW,
        &[(
            "let live = ts > key",
            "assert!(ts != u32::MAX);
        let live = ts > key",
        )],
    ),
    // Names.
    fault(
        "id_byte_1_is_not_compared",
        FEW,
        &[("key.id == id", "(key.id ^ id) << 16 == 0")],
    ),
    fault(
        "id_byte_2_is_not_compared",
        FEW,
        &[("key.id == id", "(key.id ^ id) & !(0xFF << 40) == 0")],
    ),
    fault(
        "id_byte_3_is_not_compared",
        FEW,
        &[("key.id == id", "(key.id ^ id) & !(0xFF << 32) == 0")],
    ),
    fault(
        "id_byte_4_is_not_compared",
        FEW,
        &[("key.id == id", "(key.id ^ id) & !(0xFF << 24) == 0")],
    ),
    fault(
        "id_byte_5_is_not_compared",
        FEW,
        &[("key.id == id", "(key.id ^ id) & !(0xFF << 16) == 0")],
    ),
    fault(
        "id_byte_6_is_not_compared",
        FEW,
        &[("key.id == id", "(key.id ^ id) & !(0xFF << 8) == 0")],
    ),
    fault(
        "id_byte_7_is_not_compared",
        FEW,
        &[("key.id == id", "(key.id ^ id) >> 8 == 0")],
    ),
    fault(
        "ts_low_is_not_compared",
        FEW,
        &[("self.ts_low == name.ts_low && ", "")],
    ),
    fault(
        "ts_high_is_not_compared",
        FEW,
        &[("self.ts_high == name.ts_high && ", "")],
    ),
    fault(
        "the_spe_is_not_compared",
        FEW,
        &[(" && self.spe == name.spe", "")],
    ),
];
