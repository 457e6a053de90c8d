"""The parts of web/gateway.py, each with its test in checks/web/parts.py. No client trusts any of them.

log           log lines for the operator of the gateway
publications  publications and their files
limits        addresses, rates, shares, and turns
children      `serve` behind two pipes, and several of them over the same publications
keeper        takes in new files, and keeps the children running
counts        the content of /metrics
answers       the answer to a request
wire          HTTP over connections
options       the arguments of the command
"""
