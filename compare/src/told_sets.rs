//! The 42 sets of kinds that a refusal with 21, 22, 23, 25 or 30 tells, each with small texts that are refused with it. In most
//! of them a `:` stands where none fits.

use crate::chart::Set;

/// A set, the number that it is told with, and texts.
pub type ToldSet = (Set, u32, &'static [&'static str]);

#[rustfmt::skip]
pub const TOLD_SETS: [ToldSet; 42] = [
    (0x0010_0000_0000_8041, 22, &[":", "event e{}:"]),
    (0x0001_0000_0000_0000, 21, &["map:", "event:", "unit:", "unit u{reg:", "unit u{imm:", "unit u{heap:", "unit u{if guard(:",
        "map m{type:.:", "unit u{x.:", "unit u{x.value;"]),
    (0x0000_0000_0200_0000, 21, &["map m:", "event e:", "unit u:", "unit u{if guard(x):", "unit u{if guard(x){}else:"]),
    (0x0000_0000_0400_0780, 23, &["map m{:", "map m{max:1;:"]),
    (0x0000_0000_2000_0000, 21, &["map m{type;", "map m{key;", "map m{value;", "map m{max;", "event e{a;"]),
    (0x0000_0000_4000_0000, 21, &["map m{type::"]),
    (0x0000_0000_01e0_0000, 25, &["map m{key::", "map m{value::", "map m{key:", "map m{key:q u32;"]),
    (0x0004_0000_0000_0000, 21, &["map m{max::", "map m{max:1<<:", "event e{a:bytes[:", "event e{a:u32[:"]),
    (0x0000_c001_0000_0000, 21, &["map m{max:1:", "map m{max:1<<2:"]),
    (0x0000_0001_0000_0000, 21, &["map m{type:.hash:", "map m{key:u32:", "event e{a:u32[1]:", "unit u{section\"s\":",
        "unit u{license\"s\":"]),
    (0x0001_0000_0400_0000, 21, &["event e{:", "event e{a:u32;:", "event e{key:u32;}"]),
    (0x0008_0000_01e0_0000, 30, &["event e{a::"]),
    (0x0000_0003_0000_0000, 21, &["event e{a:u32:"]),
    (0x0000_0002_0000_0000, 21, &["event e{a:bytes:"]),
    (0x0000_0004_0000_0000, 21, &["event e{a:bytes[1:"]),
    (0x0005_0800_0c00_483e, 21, &["unit u{:", "unit u{a;:", "unit u{if guard(x){}else{}:", "unit u{if guard(x){}a;:",
        "unit u{if guard(x){}section\"s\";:"]),
    (0x0005_0800_0c00_583e, 21, &["unit u{if guard(x){}:", "unit u{a;if guard(x){}:"]),
    (0x0005_0800_0c00_4838, 21, &["unit u{if guard(x){:", "unit u{if guard(x){a;:", "unit u{if guard(x){if guard(y){}else{}:"]),
    (0x0005_0800_0c00_5838, 21, &["unit u{if guard(x){if guard(y){}:"]),
    (0x0002_0000_0000_0000, 21, &["unit u{section:", "unit u{license:"]),
    (0x0000_0008_0000_0000, 21, &["unit u{reg a:", "unit u{imm a:", "unit u{heap a:"]),
    (0x0000_0000_0000_2000, 21, &["unit u{if:"]),
    (0x0000_0000_0800_0000, 21, &["unit u{if guard:"]),
    (0x0000_0000_1000_0000, 21, &["unit u{if guard(x:"]),
    (0x0005_0800_0800_0000, 21, &["unit u{a=:", "unit u{a+=:", "unit u{return:", "unit u{reg a=:", "unit u{a+:", "unit u{a*:",
        "unit u{a<<:", "unit u{*:", "unit u{(:", "unit u{x.f(1,:", "unit u{x.f(*:"]),
    (0x0005_0800_1800_0000, 21, &["unit u{x.f(:", "unit u{1.f(:"]),
    (0x0000_fe19_4000_0000, 21, &["unit u{a:", "unit u{1:", "unit u{*a:", "unit u{a*b:", "unit u{a<<b:", "unit u{a.b():",
        "unit u{(x.f):"]),
    (0x0000_fe19_4800_0000, 21, &["unit u{a.b:", "unit u{1.f:"]),
    (0x0000_3e19_4000_0000, 21, &["unit u{a+b:", "unit u{a<<b+c:", "unit u{a+(b):"]),
    (0x0000_3e19_4800_0000, 21, &["unit u{a+b.c:"]),
    (0x0000_fe01_4000_0000, 21, &["unit u{a=b:", "unit u{return a:", "unit u{reg a=b:"]),
    (0x0000_fe01_4800_0000, 21, &["unit u{a=b.c:"]),
    (0x0000_3e01_4000_0000, 21, &["unit u{a=b+c:", "unit u{return a-b:"]),
    (0x0000_3e01_4800_0000, 21, &["unit u{return a+b.c:"]),
    (0x0000_fe00_5000_0000, 21, &["unit u{(a:", "unit u{a+(b:"]),
    (0x0000_fe00_5800_0000, 21, &["unit u{(a.b:"]),
    (0x0000_3e00_5000_0000, 21, &["unit u{(a+b:"]),
    (0x0000_3e00_5800_0000, 21, &["unit u{(a+b.c:"]),
    (0x0000_fe00_d000_0000, 21, &["unit u{x.f(a:", "unit u{x.f(a+b,c:"]),
    (0x0000_fe00_d800_0000, 21, &["unit u{x.f(a.b:"]),
    (0x0000_3e00_d000_0000, 21, &["unit u{x.f(a+b:", "unit u{x.f(a,b+c:"]),
    (0x0000_3e00_d800_0000, 21, &["unit u{x.f(a+b.c:"]),
];
