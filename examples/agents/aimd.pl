#!/usr/bin/perl
# Additive increase and multiplicative decrease over the frames of `ccp drive`: the agent of aimd.c in Perl.
# The scenario's program 3 has to be round.portus, whose fields are acked, lost, timeout, rtt, inflight.
#
#     mkfifo frames
#     (cat scenario.json; echo ---; ./aimd.pl) < frames | ./ccp drive > frames
use strict;
use warnings;
use integer;

use constant { CREATE => 1, MEASURE => 2, UPDATE => 4, CHANGE => 5, REFUSED => 8, PROGRAM => 3, HEAD => 16 };
# no scenario has this flow, so an update of it is refused at once: the refusal marks the end of what came before it
use constant NO_FLOW => 0xffffffff;

my ($mss, $window, $calm, $marks) = (0, 0, 0, 0);

# An Update, or a Change to PROGRAM, that sets the window; without a window it has no values.
sub frame {
    my ($kind, $flow, $cwnd) = @_;
    my $body = $kind == CHANGE ? pack("V", PROGRAM) : "";
    $body .= pack("CCQ<", 4, 4, $cwnd) if $cwnd;
    return pack("CCCCvvVV", $kind, 1, $cwnd ? 1 : 0, 0, 0, 0, $flow, HEAD + length $body) . $body;
}

# The next bytes of the input; fewer at its end.
sub bytes {
    read STDIN, my $data, $_[0];
    return $data;
}

sub on_report {
    # version 1: program, epoch, first, end, and then now, cwnd, rate and the fields
    my (undef, undef, undef, undef, $now, undef, undef, $acked, $lost, $timeout, $rtt) = unpack "V4 Q<*", $_[0];
    if ($timeout) {
        $window = $mss;
    } elsif ($lost && $now >= $calm) {
        $window = $window / 2 > 2 * $mss ? $window / 2 : 2 * $mss;
        $calm = $now + $rtt;
    } elsif (!$lost) {
        $window += $mss * $acked / $window;
    }
}

binmode STDIN;
binmode STDOUT;
$| = 1;
while (length(my $head = bytes(HEAD)) == HEAD) {
    my ($kind, $flow, $length) = unpack "C x7 V V", $head;
    my $body = bytes($length - HEAD);
    last if length $body != $length - HEAD;
    if ($kind == REFUSED) {
        die "aimd: refused, reason " . ord($body) . "\n" if $flow != NO_FLOW;
        exit 0 if --$marks == 0;
        next;
    }
    if ($kind == CREATE) {
        ($window, $mss, $calm) = (unpack("Q<V", $body), 0);
    } elsif ($kind == MEASURE) {
        on_report($body);
    }
    print frame($kind == MEASURE ? UPDATE : CHANGE, $flow, $window), frame(UPDATE, NO_FLOW, 0);
    $marks++;
}
die "aimd: the datapath ended\n";
