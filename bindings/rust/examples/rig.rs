//! Two records of a rig's log: three pressures of 12 bits and a valve, converted for a customer who wants whole bytes.
use yirvagul::{convert_copying, leaf_list, Class, Error, Handling, Layout, Order, Pad, Sign};

const RIG: &str = "\
int\t2\tBE\t4\t12\tzero\tzero\tunsigned
int\t1\tLE\t0\t8\tzero\tzero\tsigned
enum\t1
value\topen\t0
value\tshut\t1
array\t0\t3
comp\t8
member\tboost\t0\t3
member\tvalve\t7\t2
";

const CUSTOMER: &str = "\
int\t2\tLE\t0\t16\tzero\tzero\tunsigned
int\t1\tLE\t0\t8\tzero\tzero\tunsigned
enum\t1
value\tshut\t0
value\topen\t1
array\t0\t3
comp\t7
member\tvalve\t0\t2
member\tboost\t1\t3
";

fn main() -> Result<(), Error> {
    // The pressures 100, 2000 and 4095 with the valve open; then 0, 1 and 2 with a valve number that no symbol has.
    let log = b"\x06\x40\x7d\x00\xff\xf0\x00\x00\x00\x00\x00\x10\x00\x20\x00\x07";
    let (rig, customer) = (RIG.as_bytes(), CUSTOMER.as_bytes());
    let mut out = [0; 14];
    let refused = convert_copying(rig, customer, 2, Handling::Stop, log, &mut out).unwrap_err();
    println!("{refused}");
    let exceptions = convert_copying(rig, customer, 2, Handling::Clamp, log, &mut out)?;
    println!("{exceptions} exception");
    for record in out.chunks(7) {
        let hex: Vec<String> = record.iter().map(|b| format!("{b:02x}")).collect();
        println!("{}", hex.join(" "));
    }
    print!("{}", leaf_list(rig)?);

    let mut pressure = Layout {
        class: Class::Int,
        size: 2,
        order: Order::BE,
        offset: 4,
        precision: 12,
        lsb: Pad::Zero,
        msb: Pad::Zero,
        sign: Sign::Unsigned,
    };
    pressure.set_field(4, 20)?;
    println!("{} bytes, offset {}", pressure.size, pressure.offset);
    Ok(())
}
