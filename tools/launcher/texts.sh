# shellcheck shell=bash disable=SC2034
# Written by tools/write-tables from the definitions of the crates and tools/modes.json; don't edit it.
# of each mode its name, what it reads, what it does, its page and an example, with tabs between
mode_rows=(
    'check	a program	shows a program'"'"'s summary and its compiled code	docs/language.md	./ccp check examples/reno_ss.portus'
    'fold	a program and acknowledgements	runs a program over acknowledgements and prints its reports	docs/language.md	./ccp fold examples/measurement-program.ccp'
    'campaign	a scenario of at most 1,024 cases	runs each case and prints a table	docs/scenarios.md	./ccp campaign examples/campaign.json'
    'timeline	a scenario of at most 64 cases	prints every report of each case	docs/timeline.md	./ccp timeline examples/live.json'
    'acks	a scenario of at most 64 cases	prints every acknowledgement of each case, as lines for fold	docs/timeline.md	./ccp acks examples/live.json'
    'live	a scenario of at most 64 cases	runs the cases on datapath and agent threads, and prints every report	docs/live.md	./ccp live examples/live.json'
    'shared	a scenario with a bottleneck	runs all flows over one bottleneck and prints a table	docs/shared.md	./ccp shared examples/shared.json'
    'shared-timeline	a scenario with a bottleneck	prints every report of flows over one bottleneck	docs/shared.md	./ccp shared-timeline examples/shared.json'
    'shared-acks	a scenario with a bottleneck	prints every acknowledgement of flows over one bottleneck	docs/shared.md	./ccp shared-acks examples/shared.json'
    'rollout	a scenario of a rollout	installs programs while their flows run, and prints every report	docs/rollout.md	./ccp rollout --datapaths 2 --agents 2 examples/rollout.json'
    'audit	a scenario and a live text	judges whether live could have printed the text	docs/audit.md	./ccp live examples/live.json > live.txt; ./ccp audit examples/live.json live.txt'
    'feed	frames	answers each frame as a datapath does, for your own agent	docs/frames.md	grep -v '"'"'^#'"'"' examples/feed.hex | xxd -r -p | ./ccp feed | xxd -p'
    'drive	a scenario and frames	lets your own agent drive flows on the link, and tells it what they report	docs/drive.md	./ccp drive examples/driven.drive | xxd -p'
    'drive-table	a scenario and frames	prints the table of driven flows	docs/drive.md	./ccp drive-table examples/driven.drive'
    'drive-timeline	a scenario and frames	prints every report of driven flows	docs/drive.md	./ccp drive-timeline examples/driven.drive'
    'drive-acks	a scenario and frames	prints every acknowledgement of driven flows	docs/drive.md	./ccp drive-acks examples/driven.drive'
    'soak	nothing	prints the sums of 64 generated cases	-	./ccp soak --number 7 --workers 4'
)
# of each sub-command its name and what it does, with a tab between
command_rows=(
    'compare	compares senders over traces: tables, figures and a report'
    'hunt	finds a link on which a sender is bad, and makes it small'
    'tune	finds numbers of a program that do better on links, and checks them on others'
    'scenario	makes a scenario from traces and a grid of senders, queues, delays and losses'
    'trace	shows, cuts, makes and converts traces of links'
    'metrics	throughput, delay, loss and fairness of each case'
    'plot	plots bars, scatter, distributions and flows over time'
    'explain	explains why an input is refused, and where'
    'table	writes what a mode printed as CSV or JSON'
    'verify	checks a live text against its scenario, and shows the first line that differs'
    'over	runs a large scenario in parts, on several machines if you like'
)
# of each exit status its number and what it means, with a tab between
status_rows=(
    '0	done'
    '2	words refused'
    '3	input refused'
    '4	read fault'
    '5	write fault'
    '6	out of memory'
)
