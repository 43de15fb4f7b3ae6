# The work of `records` on the script [] or, for a path of keys, [["get",[KEY,..]]], done by jq:
#     jq -c -f bench/records.jq --args KEY < big.jsonl > expected.jsonl
def find($path):
  if $path == [] then .
  elif type == "object" and has($path[0]) then .[$path[0]] | find($path[1:])
  else empty end;
$ARGS.positional as $path
| {replies: (if $path == [] then [] else [[find($path)]] end), document: .}
