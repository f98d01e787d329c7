# Serves a node of a program over the loopback interface, and sends it by hand what its peers might, and might not. Written is
# what its record has of each datagram, with the number of that in front, and then the lines of the node's end, in which the
# steps are these numbers too.
#
#     peers.py PROGRAM NODE <DATAGRAMS
#
# A line is a datagram: the node that it comes from, and its bytes in hexadecimal digits, which may stand in words; 0007*512
# are so many times these digits. Behind an empty line the node is served anew. Where ticks come between the datagrams, since
# this comes late, what is given at them isn't told.
import re
import socket
import subprocess
import sys
import time

program, node = sys.argv[1:]
with open(program) as file:
    ports = {name: int(port) for name, port in re.findall(r"(\w+) PORT (\d+)", file.read())}
links = {name: socket.socket(socket.AF_INET, socket.SOCK_DGRAM) for name in ports if name != node}
for name, link in links.items():
    link.bind(("127.0.0.1", ports[name]))


def datagram(line):
    source, *words = line.split()
    parts = [word.partition("*") for word in words]
    return source, bytes.fromhex("".join(part * int(times or 1) for part, _, times in parts))


def is_bound(port):
    try:
        with open("/proc/net/udp") as table:
            return f":{port:04X} " in table.read()
    except FileNotFoundError:
        time.sleep(0.1)
        return True


# The lines of a record in which so many takes more than datagrams came, or None where these came too late or a node was
# declared down.
def record(datagrams, more):
    words = ["circus", "node", program, node, str(len(datagrams) + more)]
    served = subprocess.Popen(words, stdout=subprocess.PIPE, text=True)
    while served.poll() is None and not is_bound(ports[node]):
        time.sleep(0.001)
    for source, data in datagrams:
        links[source].sendto(data, ("127.0.0.1", ports[node]))
    lines = served.communicate()[0].splitlines()
    came = [line.split()[2] for line in lines if line.startswith("event ")]
    return lines if came.count("datagram") == len(datagrams) and "down" not in came else None


def tell(lines):
    came = [0]
    is_told = True
    for line in lines:
        if line.startswith("event "):
            came.append(came[-1] + (" datagram " in line))
            is_told = not line.endswith(" tick")
        elif re.match("give |differ ", line):
            if is_told:
                print(came[-1], line)
        elif not line.startswith("circus node "):
            print(re.sub(r"(?<= step )\d+|(?<= at )\d+(?= count)", lambda step: str(came[int(step[0]) + 1]), line))


for served in re.split(r"\n\n+", sys.stdin.read().strip("\n")):
    datagrams = [datagram(line) for line in served.splitlines()]
    tell(next(filter(None, (record(datagrams, more) for more in [0, 0] + [7] * 20)), ["too late each time"]))
