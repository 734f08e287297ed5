#!/bin/sh
# Audits a project, and writes its result for the textfile collector of Prometheus' node_exporter.
#
# usage: audit.sh PROJECT OUT TEXTFILE
#
# PROJECT is a project file of once-import, OUT the folder of the documents and answers, TEXTFILE the file that node_exporter reads, as
# /var/lib/node_exporter/once.prom. Needs jq. Ends with the status of `once-import audit`.
set -u
project=$1 out=$2 textfile=$3
mkdir -p "$out"
set --
if [ -f "$out/network.json" ] || [ -f "$out/ipv4/network.json" ] || [ -f "$out/ipv6/network.json" ]; then
    set -- --since "$out"
fi
once-import audit "$project" --out "$out" "$@" --format json > "$out/audit.json"
status=$?
jq -r --argjson status "$status" --arg project "$project" --argjson now "$(date +%s)" '
  def of_project: "{project=" + ($project | tojson) + "}";
  def metric(name; help; value): "# HELP \(name) \(help)\n# TYPE \(name) gauge\n\(name)\(of_project) \(value)";
  metric("once_audit_status"; "Exit status of once-import audit: 0 certified, 1 refuted."; $status),
  metric("once_audit_time_seconds"; "When the audit ended."; $now),
  metric("once_audit_newly_wrong_classes"; "Classes that were counted as declared the night before and are not now.";
         [.meaning[] | select(test("^since .* is newly wrong: "))] | length),
  metric("once_audit_warnings"; "Findings that an answer is about or will be about."; [.findings[] | select(.grade == "warning")] | length),
  metric("once_audit_not_carried_over"; "Statements that documents do not say, less those accepted.";
         [.findings[] | select(.grade == "not carried over" and (.accepted | not))] | length)
' "$out/audit.json" > "$textfile.new" && mv "$textfile.new" "$textfile"
exit "$status"
