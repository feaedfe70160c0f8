"""Serves its standard input as `mpw script` does, by the model: for a test of the pipe."""
import socket
import sys

from stand_in import StandIn

if __name__ == "__main__":
    assert sys.argv[1:3] == ["script", "--officer"] and sys.argv[4] == "--digest" and len(sys.argv) == 6
    stand_in = StandIn(sys.argv[3], bytes.fromhex(sys.argv[5]))
    stand_in.serve(socket.socket(fileno=0))
