# shellcheck shell=bash disable=SC2034
# Written by tools/write-tables from the definitions of the crates and tools/modes.json; don't edit it.
modes=(check fold campaign timeline acks live shared shared-timeline shared-acks rollout audit feed drive drive-table drive-timeline drive-acks soak)
commands=(compare hunt tune scenario trace metrics plot explain table verify over)
# the FILEs that a mode takes
declare -A files_of=([check]=FILE [fold]='PROGRAM ACKS' [campaign]=FILE [timeline]=FILE [acks]=FILE [live]=FILE [shared]=FILE [shared-timeline]=FILE [shared-acks]=FILE [rollout]=FILE [audit]='SCENARIO TEXT' [feed]=FILE [drive]='SCENARIO FRAMES' [drive-table]='SCENARIO FRAMES' [drive-timeline]='SCENARIO FRAMES' [drive-acks]='SCENARIO FRAMES' [soak]='')
# the form of a mode's input
declare -A kind_of=([check]=program [fold]=fold [campaign]=campaign [timeline]=live [acks]=live [live]=live [shared]=shared [shared-timeline]=shared [shared-acks]=shared [rollout]=rollout [audit]=audit [feed]=feed [drive]=drive [drive-table]=drive [drive-timeline]=drive [drive-acks]=drive [soak]=nothing)
# the options that a mode uses
declare -A options_of=([check]='' [fold]='' [campaign]='workers wire' [timeline]='workers wire' [acks]=workers [live]='datapaths agents wire' [shared]=workers [shared-timeline]='workers wire' [shared-acks]=workers [rollout]='datapaths agents' [audit]='' [feed]='' [drive]='' [drive-table]=wire [drive-timeline]=wire [drive-acks]='' [soak]='workers number')
# of each option its name, its least and greatest value, its modes, and what it is, with tabs between
option_rows=(
    'datapaths	1	32	live,rollout	threads of datapaths'
    'agents	1	32	live,rollout	threads of agents'
    'workers	1	32	campaign,soak,shared,shared-timeline,shared-acks,timeline,acks	threads that share the cases or flows'
    'number	0	4294967295	soak	the number from which the cases are drawn'
    'wire	-	-	live,campaign,timeline,shared-timeline,drive-table,drive-timeline	prints the Install frames of the programs first'
)
