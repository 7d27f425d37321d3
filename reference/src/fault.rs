//! Deliberate faults of the kind that looks right, for testing a comparison.
//!
//! Without the feature `faults`, `fault` is the constant false and every
//! marked place compiles to the right behaviour at no cost. With it, the one
//! fault whose number stands in `FAULT` is active; 0 is none.

#[cfg(feature = "faults")]
use std::sync::atomic::{AtomicU32, Ordering};

/// The number of the active fault, 0 for none.
#[cfg(feature = "faults")]
static FAULT: AtomicU32 = AtomicU32::new(0);

/// Makes fault `n` active (0: none).
#[cfg(feature = "faults")]
pub fn set_fault(n: u32) {
    FAULT.store(n, Ordering::Relaxed);
}

/// Is fault `n` active?
#[cfg(feature = "faults")]
#[inline(always)]
pub(crate) fn fault(n: u32) -> bool {
    FAULT.load(Ordering::Relaxed) == n
}

#[cfg(not(feature = "faults"))]
#[inline(always)]
pub(crate) const fn fault(_: u32) -> bool {
    false
}

/// Is some fault active?
#[inline(always)]
pub(crate) fn any() -> bool {
    cfg!(feature = "faults") && !fault(0)
}

/// IX is ORed into r.
pub const IX_IN_R: u32 = 1;
/// IX is ORed into the column of @r.
pub const IX_IN_COLUMN: u32 = 2;
/// A decimal difference of -10 gives no borrow.
pub const DECIMAL_NO_BORROW: u32 = 3;
/// A skipped word is decoded, and refused with 3 or 4.
pub const SKIPPED_DECODED: u32 = 4;
/// A BR address is masked to 10 bits.
pub const BRANCH_MASKED: u32 = 5;
/// The two high bits of P0E read their pins.
pub const P0E_HIGH_PINS: u32 = 6;
/// Direction 1 reads the pin, 0 the stored bit.
pub const DIRECTION_INVERTED: u32 = 7;
/// CMP 1 stores the arithmetic result.
pub const COMPARE_STORES: u32 = 8;
/// CMP 1 sets Z at a result of 0.
pub const COMPARE_SETS_Z: u32 = 9;
/// INC IX clears MPE.
pub const INC_IX_CLEARS_MPE: u32 = 10;
/// MOVT works with a full stack.
pub const MOVT_WITHOUT_LEVEL: u32 = 11;
/// A run that begins standing with release 0 reports one step.
pub const STANDBY_COUNTED: u32 = 12;
/// RETSK sets no skip.
pub const RETSK_NO_SKIP: u32 = 13;
/// The check drops rule 5's clause on RETSK.
pub const CHECK_NO_RETSK_CLAUSE: u32 = 14;
/// A return leaves the closed stack place as it is.
pub const STACK_NOT_CLEARED: u32 = 15;
/// CMP 0, destination 7FH: CY and Z are set after the result is stored.
pub const PSW_FLAGS_AFTER_STORE: u32 = 16;
/// Z goes by the stored cell, after its fixed bits are cut.
pub const ZERO_OF_STORED: u32 = 17;
/// RORC on 7FH also puts its bit into CY.
pub const RORC_PSW_CARRY: u32 = 18;
/// With IXE set, MPE does not count.
pub const MPE_ONLY_WITHOUT_IXE: u32 = 19;
/// CALL asks for a free level before it looks at its address.
pub const LEVEL_BEFORE_ADDRESS: u32 = 20;
/// SKT and SKF clear CMP only when they skip.
pub const TEST_KEEPS_CMP: u32 = 21;
/// A released step that is refused loses the standing mark.
pub const RELEASE_LOST: u32 = 22;
/// PC goes on at 0 after the ROM's last word.
pub const WRAP_AT_ROM_END: u32 = 23;
/// A sheet entry that breaks rule 2 counts as never reached.
pub const CHECK_ODD_ENTRY: u32 = 24;
/// A section that is cut off is 21 even if it has an entry out of range.
pub const SHORT_BEFORE_RANGE: u32 = 25;
/// r is read from its cell, past the port rule.
pub const R_PAST_PORT: u32 = 26;
/// A word of the group's columns 0 to D is decoded in every row.
pub const GROUP_ANY_ROW: u32 = 27;
/// The encoder masks an operand that is too large to its field.
pub const ENCODER_MASKS: u32 = 28;
/// Closed stack places are not tested.
pub const CLOSED_NOT_TESTED: u32 = 29;
/// The writer tests every count before the first entry.
pub const COUNTS_BEFORE_ENTRIES: u32 = 30;
/// A file with bytes after its end is 24 even if an input is out of range.
pub const EXCESS_BEFORE_RANGE: u32 = 31;
/// SKGE and SKLT are exchanged, in the decoder, the encoder and the step.
pub const SKIPS_EXCHANGED: u32 = 32;
/// Six open levels are in range.
pub const SIX_LEVELS: u32 = 33;
/// A skip mark of 2 is in range.
pub const SKIP_OF_TWO: u32 = 34;
/// A standby mark of 3 is in range.
pub const STANDBY_OF_THREE: u32 = 35;
/// A PC of 1,024 is in range.
pub const PC_PAST_LAST: u32 = 36;
/// A release of 2 is in range.
pub const RELEASE_OF_TWO: u32 = 37;
/// A ROM of 1,025 words is in range for a step and a run.
pub const ROM_ONE_MORE: u32 = 38;
/// A budget of 65,536 is in range.
pub const BUDGET_ONE_MORE: u32 = 39;
/// MOVT takes one cycle.
pub const MOVT_ONE_CYCLE: u32 = 40;
/// A skipped MOVT takes two cycles.
pub const SKIPPED_MOVT_TWO: u32 = 41;
/// A skipped word takes no cycle.
pub const SKIPPED_FREE: u32 = 42;
/// The cycles of a refused step are counted.
pub const REFUSED_CYCLES: u32 = 43;
/// A refused run reports no cycles.
pub const REFUSED_RUN_NO_CYCLES: u32 = 44;
/// A step that stays in standby takes a cycle.
pub const STANDBY_CYCLE: u32 = 45;
/// A budget counts cycles.
pub const BUDGET_OF_CYCLES: u32 = 46;
/// A run that ends in standby reports cycles for the rest of its budget.
pub const CYCLES_OF_BUDGET: u32 = 47;
/// Cycles are counted in 16 bits.
pub const CYCLES_OF_16_BITS: u32 = 48;
/// `END` has the cycles before the steps.
pub const END_EXCHANGED: u32 = 49;
/// A step's pulse comes before its writes and reads.
pub const PULSE_BEFORE_WRITES: u32 = 50;
/// TMRES is stored in 11H.
pub const TMRES_STORED: u32 = 51;
/// TMRES clears the divider too.
pub const TMRES_CLEARS_DIVIDER: u32 = 52;
/// TMRES clears the counter only if TMEN is written as 1.
pub const TMRES_ONLY_RUNNING: u32 = 53;
/// The counter is reset by the pulse that brings it to the modulo register.
pub const MATCH_AT_EQUALITY: u32 = 54;
/// A counter above the modulo register is reset as well.
pub const MATCH_ABOVE: u32 = 55;
/// The counter stays at the modulo register.
pub const COUNTER_STUCK: u32 = 56;
/// TMCK 00 is fx/32 and 01 fx/256.
pub const CLOCKS_EXCHANGED: u32 = 57;
/// TMEN 0 stops the divider.
pub const DIVIDER_STOPPED: u32 = 58;
/// A change of the clock clears the divider.
pub const CLOCK_CHANGE_DIVIDES: u32 = 59;
/// MOVT's second cycle is lost to the divider.
pub const MOVT_DIVIDES_ONE: u32 = 60;
/// MOVT's two cycles count two pulses of the INT clock.
pub const MOVT_TWO_PULSES: u32 = 61;
/// The pulse bit is counted with every clock.
pub const PULSE_WITH_ANY_CLOCK: u32 = 62;
/// 11H is 0000B at reset, as source 000 has it in fig. 19-2.
pub const TIMER_OFF_AT_RESET: u32 = 63;
/// PUT to the modulo register clears the counter.
pub const PUT_RESTARTS: u32 = 64;
/// PUT to the counter is allowed.
pub const PUT_COUNTER: u32 = 65;
/// GET of the modulo register is allowed.
pub const GET_MODULO: u32 = 66;
/// GET clears 0CH and 0DH.
pub const GET_WHOLE_BUFFER: u32 = 67;
/// IX is ORed into rf.
pub const IX_IN_RF: u32 = 68;
/// PEEK of a port reads its cell, past the port rule.
pub const PEEK_PAST_PORT: u32 = 69;
/// 24H gives the directions of P0B bit by bit.
pub const GROUP_BY_BITS: u32 = 70;
/// TMOSEL does not make P0D3 an output.
pub const TMOSEL_IGNORED: u32 = 71;
/// Directions come from the input record.
pub const DIRECTIONS_OF_INPUT: u32 = 72;
/// A skipped word meets refusal 30.
pub const SKIPPED_MEETS_30: u32 = 73;
/// A word that is refused moves the timer.
pub const REFUSED_MOVES_TIMER: u32 = 74;
/// HALT's standing step counts as a step and a cycle.
pub const HALT_COUNTED: u32 = 75;
/// A run that begins in HALT stands for its whole budget.
pub const HALT_FOR_BUDGET: u32 = 76;
/// A run that begins in HALT moves the timer at budget 0 too.
pub const BUDGET_0_STANDS: u32 = 77;
/// STOP's standing step moves the timer.
pub const STOP_MOVES_TIMER: u32 = 78;
/// STOP clears the counter.
pub const STOP_CLEARS_COUNTER: u32 = 79;
/// 11H with TMRES set is in range.
pub const TMRES_IN_RANGE: u32 = 80;
/// A divider of 128 is in range.
pub const DIVIDER_OF_128: u32 = 81;
/// A pulse bit of 2 is in range.
pub const PULSE_OF_TWO: u32 = 82;
/// The check still bans PEEK, POKE, GET and PUT.
pub const CHECK_BANS_FOUR: u32 = 83;
/// The check passes PEEK, POKE, GET and PUT whatever they name.
pub const CHECK_WITHOUT_30: u32 = 84;
/// r is not tested where it gives only the column of @r.
pub const POINTER_NOT_TESTED: u32 = 85;
/// Where MPE is set, the test takes @r in m's row.
pub const TESTED_IN_ROW_OF_M: u32 = 86;
/// The test takes m before the OR with IX.
pub const TESTED_BEFORE_IX: u32 = 87;
/// With CMP 1 the target of a result is not tested.
pub const COMPARE_NOT_TESTED: u32 = 88;
/// SKT and SKF with n = 0 do not test m.
pub const EMPTY_TEST_NOT_TESTED: u32 = 89;
/// RORC does not test r.
pub const RORC_NOT_TESTED: u32 = 90;
/// What MOV m,#n4, MOV m,@r and ST write to a missing cell is lost, as source
/// 000, 5.1.6, has it.
pub const WRITE_LOST: u32 = 91;
/// PEEK of a missing cell reads 0.
pub const PEEK_READS_0: u32 = 92;
/// What POKE writes to a missing cell is lost.
pub const POKE_LOST: u32 = 93;
/// PEEK and POKE of a missing cell are refused with 30.
pub const FILE_CELL_MEETS_30: u32 = 94;
/// The 17120 lacks 6FH too.
pub const P0E_MISSING: u32 = 95;
/// The 17132 refuses 40H to 6EH too.
pub const MISSING_ON_17132: u32 = 96;
/// A SKT or SKF that is refused with 31 has cleared CMP.
pub const REFUSED_TEST_CLEARS_CMP: u32 = 97;
/// A step that is refused with 31 has moved PC.
pub const REFUSED_31_MOVES_PC: u32 = 98;
/// A run that is refused with 31 leaves the record as it came, and reports
/// nothing.
pub const RUN_UNDONE_BY_31: u32 = 99;
/// A skipped word meets refusal 31.
pub const SKIPPED_MEETS_31: u32 = 100;
/// A step that stays in standby meets refusal 31.
pub const STANDING_MEETS_31: u32 = 101;
/// Refusal 31 comes before that of a pulse out of range.
pub const MISSING_BEFORE_RANGE: u32 = 102;
/// A missing cell that is not 0 is in range.
pub const MISSING_NOT_0: u32 = 103;
/// A missing cell that is not 0 is refused with 31.
pub const MISSING_NOT_0_MEETS_31: u32 = 104;
/// A ROM of 769 words is in range for a step and a run on the 17120.
pub const ROM_OF_769: u32 = 105;
/// A PC past the model's last word is out of range.
pub const PC_OF_ROM: u32 = 106;
/// A stacked address past the model's last word is out of range.
pub const STACK_OF_ROM: u32 = 107;
/// Past the model's last word the ROM reads FFFFH, as source 000, 3.3, has it.
pub const READS_PAST_ROM: u32 = 108;
/// Refusal 5 starts behind the model's last word.
pub const ADDRESS_OF_ROM: u32 = 109;
/// PC goes on at 0 after the model's last word.
pub const WRAP_AT_768: u32 = 110;
/// In the check next is 0 after the model's last word.
pub const CHECK_WRAPS_AT_768: u32 = 111;
/// The check takes a ROM of up to 1,024 words for the 17120.
pub const CHECK_OF_17132: u32 = 112;
/// The check lets MOVT stand in the model's longest ROM.
pub const CHECK_MOVT_OF_ROM: u32 = 113;
/// A PEEK or POKE of a missing cell breaks rule 3.
pub const CHECK_BANS_MISSING: u32 = 114;
/// A model's number is taken by its lowest bit.
pub const MODEL_BY_LOW_BIT: u32 = 115;
/// 9 compares the sheet's bytes with the ROM's words, and not with twice as many.
pub const CHECK_BYTE_A_WORD: u32 = 116;
/// An odd byte after the sheet's entries is no refusal 9.
pub const CHECK_ODD_LENGTH: u32 = 117;
/// A named word's range must lie in the word's own, and not hold it.
pub const CHECK_HOLDS_INVERTED: u32 = 118;
/// A named word must have the range itself; one that holds more breaks the rule.
pub const CHECK_SAME_RANGE: u32 = 119;
/// Word 0 must have level 0 and no other.
pub const CHECK_START_OF_0_ALONE: u32 = 120;
/// At word 0 an entry that breaks rule 2 breaks no rule 1.
pub const CHECK_ODD_START: u32 = 121;
/// In rule 2 an entry with 15 for one half only counts as never reached.
pub const CHECK_HALF_NEVER: u32 = 122;
/// In rule 2 an entry with its lowest above its highest counts as never reached.
pub const CHECK_TURNED_RANGE: u32 = 123;
/// An entry that breaks rule 2 by its highest holds the levels up to 5.
pub const CHECK_ODD_HOLDS: u32 = 124;
/// A RETSK whose entry breaks rule 2 by its highest is reached up to level 5.
pub const CHECK_ODD_RETSK: u32 = 125;
/// For CALL's target the lowest is raised, the highest only where they are equal.
pub const CHECK_LOWEST_RAISED: u32 = 126;
/// For CALL's target the highest is raised, the lowest only where they are equal.
pub const CHECK_HIGHEST_RAISED: u32 = 127;
/// Of a RETSK's range only the lowest level is compared with the raised range.
pub const CHECK_RETSK_AT_LOWEST: u32 = 128;
/// Of the raised range only the lowest level is compared with the RETSKs' ranges.
pub const CHECK_CALLED_AT_LOWEST: u32 = 129;
/// The word after next must hold only the levels that a RETSK returns to.
pub const CHECK_SHARED_ALONE: u32 = 130;
/// CALL needs a lowest of at most 4, and the raised range ends at 5.
pub const CHECK_CALL_AT_LOWEST: u32 = 131;
/// MOVT needs a lowest of at most 4.
pub const CHECK_MOVT_AT_LOWEST: u32 = 132;
/// RET and RETSK need a highest of at least 1.
pub const CHECK_RETURN_AT_HIGHEST: u32 = 133;
/// Form 3 is read as form 2.
pub const FORM_OF_THREE: u32 = 134;
/// The reader takes an entry with 15 for one half only.
pub const READ_HALF_NEVER: u32 = 135;
/// The reader takes an entry with its lowest above its highest.
pub const READ_TURNED_RANGE: u32 = 136;
/// A file that ends within an entry of the sheet is refused with 23.
pub const CUT_ENTRY_MEETS_23: u32 = 137;
/// A file that ends within an entry of the sheet is 21 whatever its first half is.
pub const CUT_NOT_TESTED: u32 = 138;
/// The count of a form 2 sheet is that of its bytes.
pub const COUNT_OF_BYTES: u32 = 139;
/// 25 asks for the sheet's bytes in the file, one an entry from form 1.
pub const ROOM_OF_FILE: u32 = 140;
/// The writer leaves out an odd byte after the sheet's entries.
pub const WRITE_ODD_LENGTH: u32 = 141;
/// Every station is written in form 2.
pub const FORM_2_ALWAYS: u32 = 142;
/// A station without a sheet is written in form 2.
pub const NONE_IN_FORM_2: u32 = 143;
/// Form 1 is written wherever the first entry has equal halves.
pub const FORM_BY_FIRST: u32 = 144;

/// The number of the last fault.
pub const LAST: u32 = FORM_BY_FIRST;
