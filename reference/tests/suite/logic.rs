//! Logic, transfers, AR and IX: source 000, 11.4, 18.5 and 7.8.2.

use crate::kit::*;
use reference::Instruction::*;
use reference::Machine;

#[test]
fn section_18_5_3_examples() {
    let m = after(&[mov(0x03, 0b1010), mov(0x2F, 0b0111), OrRM { r: 3, m: 0x2F }]);
    assert_eq!(at(&m, 0x03), 0b1111);
    let m = after(&[mov(0x03, 0b1010), mov(0x2F, 0b0110), AndRM { r: 3, m: 0x2F }]);
    assert_eq!(at(&m, 0x03), 0b0010);
    let m = after(&[mov(0x03, 0b1010), mov(0x0F, 0b0110), XorRM { r: 3, m: 0x0F }]);
    assert_eq!(at(&m, 0x03), 0b1100);
    let m = after(&[mov(0x03, 0b0010), OrMN { m: 3, n: 0b1000 }]);
    assert_eq!(at(&m, 0x03), 0b1010);
    let m = after(&[mov(0x03, 0b1010), AndMN { m: 3, n: 0b0111 }]);
    assert_eq!(at(&m, 0x03), 0b0010);
    let m = after(&[mov(0x03, 0b0110), XorMN { m: 3, n: 0b1010 }]);
    assert_eq!(at(&m, 0x03), 0b1100);
}

/// Logic and transfers leave the flags alone, CMP and BCD leave them alone.
#[test]
fn no_flag_is_touched() {
    let work = [
        AndRM { r: 3, m: 0x2F },
        OrRM { r: 3, m: 0x2F },
        XorRM { r: 3, m: 0x2F },
        AndMN { m: 0x03, n: 6 },
        OrMN { m: 0x03, n: 6 },
        XorMN { m: 0x03, n: 6 },
        Ld { r: 3, m: 0x2F },
        St { m: 0x2F, r: 3 },
        mov(0x03, 0),
        MovTo { r: 3, m: 0x2F },
        MovFrom { m: 0x2F, r: 3 },
    ];
    // IXE is off here, and 0 or 1 in BCD.
    for psw in (0..16).step_by(2) {
        for bcd in 0..2 {
            let m = pass(cells(&[(0x03, 5), (0x2F, 3), (PSW, psw), (RPL, bcd)]), &work);
            assert_eq!((at(&m, PSW), at(&m, RPL)), (psw, bcd));
        }
    }
    // They write a flag's cell as any other.
    assert_eq!(at(&after(&[mov(PSW, 0xF), AndMN { m: PSW, n: 6 }]), PSW), 6);
}

/// Source 000, 7.8.2: a fixed bit stays 0.
#[test]
fn fixed_bits() {
    let fixed = [(AR3, 0), (Machine::BANK, 0), (Machine::RPH, 0), (AR2, 3), (IXH, 8), (IXM, 7)];
    for (address, kept) in fixed {
        assert_eq!(at(&after(&[mov(address, 0xF)]), address), kept);
        assert_eq!(at(&after(&[OrMN { m: address, n: 0xF }]), address), kept);
        assert_eq!(at(&after(&[AddMN { m: address, n: 0xF }]), address), kept);
        let by_store = pass(cells(&[(0, 0xF)]), &[St { m: address, r: 0 }]);
        assert_eq!(at(&by_store, address), kept);
    }
    assert_eq!(at(&after(&[mov(Machine::P0E, 0xF)]), Machine::P0E), 3);
    for address in 0..0x80 {
        let m = after(&[mov(address, 0xF)]);
        let free = !fixed.iter().any(|&(a, _)| a == address) && address != Machine::P0E;
        assert_eq!(at(&m, address) == 0xF, free, "{address:02X}");
    }
}

#[test]
fn increments_wrap() {
    for value in 0..1024_u16 {
        let start = cells(&[
            (AR2, (value >> 8) as u8),
            (AR1, (value >> 4 & 0xF) as u8),
            (AR0, (value & 0xF) as u8),
            (PSW, CY | Z | CMP),
        ]);
        let m = pass(start, &[IncAr]);
        let ar = u16::from(at(&m, AR3)) << 12
            | u16::from(at(&m, AR2)) << 8
            | u16::from(at(&m, AR1)) << 4
            | u16::from(at(&m, AR0));
        assert_eq!((ar, at(&m, PSW)), ((value + 1) % 1024, CY | Z | CMP));
    }
    for value in 0..128_u8 {
        for mpe in [0, 8] {
            let m = pass(cells(&[(IXH, mpe), (IXM, value >> 4), (IXL, value & 0xF)]), &[IncIx]);
            let next = (value + 1) % 128;
            assert_eq!((at(&m, IXH), at(&m, IXM), at(&m, IXL)), (mpe, next >> 4, next & 0xF));
        }
    }
}

#[test]
fn section_18_5_7_load_and_store() {
    let m = pass(cells(&[(0x2F, 9)]), &[Ld { r: 3, m: 0x2F }]);
    assert_eq!(at(&m, 0x03), 9);
    let m = pass(cells(&[(0x03, 9)]), &[St { m: 0x2F, r: 3 }]);
    assert_eq!(at(&m, 0x2F), 9);
    assert_eq!(at(&after(&[mov(0x50, 0xA)]), 0x50), 0xA);
}

#[test]
fn nop_moves_pc_and_divider_alone() {
    let mut wanted = reset();
    wanted.pc = 1;
    wanted.peripherals = cycles_on(1);
    assert_eq!(after(&[Nop]), wanted);
}

#[test]
fn reset_is_all_zero_but_for_the_timer() {
    let m = reset();
    assert_eq!((m.cells, m.pc, m.stack), ([0; 128], 0, [0; 5]));
    assert_eq!((m.levels, m.skip, m.standby), (0, 0, 0));
    assert_eq!(m.peripherals, cycles_on(0));
    assert!(in_range(&m));
}
