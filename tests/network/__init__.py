"""Groups of real hosts (examples/host) on loopback, behind links with faults, and what is compared of them.

siphash, datagrams   the datagram's form and what becomes of one, written from docs/HOST.md and not from the host's code
plan                 what is drawn from a seed: posts, what each link does to each datagram, and where hosts are killed
hosts                the processes
links                the sockets between them
rounds               a run whose rounds the test tells, so that it is the same on any machine
by_clock             a run by the system's clock
flood                the same while others send all that they can
record               what is compared of the reports of all stations
named                one host with wrong options, files and states, and posts of every form
document             the commands of docs/HOST.md
old_state            a station that is put back to an old state
faulty               hosts that are wrong on purpose
build                the host, the shim that kills it at a chosen call (shim.c), and the fuzz target (fuzz.c)
seeds                what the fuzz target begins with; the folder corpus has that and what was found since
"""
