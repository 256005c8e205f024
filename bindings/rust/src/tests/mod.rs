//! Tests of the calls, and of what is said of a refusal.
mod blocks;
mod calls;
mod compares;
mod explained;
mod reaches;
mod reports;
mod rules;
mod symbols;
mod words;

const BYTE: &[u8] = b"int\t1\tLE\t0\t8\tzero\tzero\tunsigned\n";
const SIGNED: &[u8] = b"int\t1\tLE\t0\t8\tzero\tzero\tsigned\n";
const PAIR: &[u8] = b"int\t2\tBE\t0\t16\tzero\tzero\tunsigned\n";
const WIDE: &[u8] = b"int\t8\tBE\t0\t64\tzero\tzero\tunsigned\n";
const SIGNED_WIDE: &[u8] = b"int\t8\tBE\t0\t64\tzero\tzero\tsigned\n";
const REAL: &[u8] = b"real\t8\tBE\n";
const BITS: &[u8] = b"bits\t1\tLE\t0\t8\tzero\tzero\n";
