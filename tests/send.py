# Sends a datagram over the loopback interface: from this port, to that one, these bytes in hexadecimal.
import socket
import sys

source, target, digits = sys.argv[1:]
link = socket.socket(socket.AF_INET, socket.SOCK_DGRAM)
link.bind(("127.0.0.1", int(source)))
link.sendto(bytes.fromhex(digits), ("127.0.0.1", int(target)))
