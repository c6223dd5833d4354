# Lines of JSON of a service, taken together with --slurp, as one log in JSON; the skew comes with --argjson.
def host: "\(.service)_\(.thread)";
def milliseconds: (.time[0:19] + "Z" | fromdate) * 1000 + (.time[20:23] | tonumber);
def name: .event | ascii_downcase | gsub("[^a-z0-9_]"; "_");
def row: {received: ["set", "works"], answered: ["clear", "works"]}[.event] // ["note", name];
{
  hosts: map(host) | unique | map({name: ., skew: $skew, gap: 0}),
  events: map({kind: row[0], host: host, time: milliseconds, name: row[1]})
}
