# The JSON reports of the jobs of one script as one: jq -s -f join.jq FOLDER/*.json
# Of runs with --strict each unjudged command stands once.
reduce .[] as $job (.[0] | .commands = [] | .pairs = [] | .total |= map_values(0)
    | if has("unjudged") then .unjudged = [] else . end
    | if has("hold_commands") then .hold_commands = 0 else . end;
  (.commands | length) as $commands | (.pairs | length) as $pairs
  | .commands += [$job.commands[] | .number += $commands]
  | .pairs += [$job.pairs[] | .number += $pairs | .command += $commands]
  | .total |= with_entries(.value += $job.total[.key])
  | if has("unjudged") then .unjudged = (.unjudged + $job.unjudged | unique) else . end
  | if has("hold_commands") then .hold_commands += $job.hold_commands else . end)
