# The lines of a report of `check` as Prometheus reads them: jq -rn --arg names "trips vehicles" --arg moment 1700034600 --slurpfile stamps STAMPS -f metrics.jq report
# Names are those of the feeds, in the order of the command line; stamps has each header's timestamp, or null.
def feed($number): ($names | split(" "))[$number];
def metric($name; $help): "# HELP \($name) \($help)", "# TYPE \($name) gauge";
def labels: to_entries | map("\(.key)=\(.value | tojson)") | "{\(join(","))}";

[inputs] as $lines
| ($names | split(" ") | length) as $count
| metric("rt_findings"; "Findings in the last snapshot of a feed."),
  ($lines | map(select(.line == "finding")) | group_by([.feed, .rule])[]
    | "rt_findings\({feed: feed(.[0].feed), rule: .[0].rule, level: .[0].level} | labels) \(length)"),
  metric("rt_refused"; "Whether the last snapshot of a feed was refused."),
  (range($count) as $row | "rt_refused\({feed: feed($row)} | labels) \($lines | map(select(.line == "refused" and .row == $row)) | length)"),
  metric("rt_entities"; "Entities of the last snapshot of a feed, where it was accepted."),
  ($lines[] | select(.line == "accepted") | "rt_entities\({feed: feed(.feed)} | labels) \(.entities)"),
  metric("rt_age_seconds"; "How old the header of the last snapshot said it was when it was fetched."),
  (range($count) as $row | $stamps[$row] | values | "rt_age_seconds\({feed: feed($row)} | labels) \(($moment | tonumber) - .)")
