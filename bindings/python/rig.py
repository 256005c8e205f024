"""Two records of a rig's log: three pressures of 12 bits and a valve, converted for a customer who wants whole bytes."""

from yirvagul import Class, Handling, Layout, Order, Pad, Refusal, Sign, convert_copying, leaf_list

RIG = """\
int\t2\tBE\t4\t12\tzero\tzero\tunsigned
int\t1\tLE\t0\t8\tzero\tzero\tsigned
enum\t1
value\topen\t0
value\tshut\t1
array\t0\t3
comp\t8
member\tboost\t0\t3
member\tvalve\t7\t2
"""

CUSTOMER = """\
int\t2\tLE\t0\t16\tzero\tzero\tunsigned
int\t1\tLE\t0\t8\tzero\tzero\tunsigned
enum\t1
value\tshut\t0
value\topen\t1
array\t0\t3
comp\t7
member\tvalve\t0\t2
member\tboost\t1\t3
"""

# The pressures 100, 2000 and 4095 with the valve open; then 0, 1 and 2 with a valve number that no symbol has.
log = bytes.fromhex("06 40 7d 00 ff f0 00 00  00 00 00 10 00 20 00 07")
out = bytearray(14)
try:
    convert_copying(RIG, CUSTOMER, 2, Handling.STOP, log, out)
except Refusal as refused:
    print(refused)
exceptions = convert_copying(RIG, CUSTOMER, 2, Handling.CLAMP, log, out)
print(exceptions, "exception")
print(out[:7].hex(" "))
print(out[7:].hex(" "))
print(leaf_list(RIG), end="")

pressure = Layout(Class.INT, 2, Order.BE, 4, 12, Pad.ZERO, Pad.ZERO, Sign.UNSIGNED)
pressure.set_field(4, 20)
print(f"{pressure.size} bytes, offset {pressure.offset}")
