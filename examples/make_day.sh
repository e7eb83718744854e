#!/bin/sh
# Makes a recording to try a monitor's tools on, always the same for the same SEED:
#   examples/make_day.sh day.bin [HOURS [SEED]]
# HOURS (3 where it is not given) of a station: groups 0A and 2A, encoded by `rds encode`. Of every 1,000 bits one is turned,
# on average. From a third of the time on for a twelfth the station is off the air: there the bits are noise. At half of
# the time one bit is lost, and at two thirds the programme identification goes from D393 to D312. After three quarters, four
# fifths and 17 twentieths of the time samples were dropped: 5, 130 and 2,375 bits mean nothing, and FILE.dropped logs them as lines
# `start length`. Prints what it did.
# RDS names the program (rds). Needs perl.
[ $# -ge 1 ] || { echo 'usage: make_day.sh FILE [HOURS [SEED]]' >&2; exit 2; }
exec perl -e '
  use strict;
  my ($file, $hours, $seed) = @ARGV;
  # The shell line below gets both names from the environment, since a name may have any byte.
  my $rds = $ENV{RDS} //= "rds";
  $ENV{SENT} = "$file.sent";
  END { unlink $ENV{SENT} if $ENV{SENT} }
  $SIG{$_} = sub { exit 1 } for qw(HUP INT TERM);
  # An encoder that ends early is seen when its pipe is closed.
  $SIG{PIPE} = "IGNORE";
  my $groups = int($hours * 3600 * 1187.5 / 104);

  # A generator of our own, so that every perl makes the same numbers: 31 bits at a time.
  my $state = $seed % 2147483648;
  sub random { $state = ($state * 1103515245 + 12345) % 2147483648; return $state / 2147483648 }

  # The groups: 0A with the letters of the name, two at a time, and 2A with those of a text, four at a time.
  my ($name, $text) = ("PAXOLIDU", "A recording to try the tools on: three hours, an outage, a slip" . " ");
  open my $lines, "|-", q("$RDS" encode > "$SENT") or die "make_day: $rds does not run\n";
  for my $n (0 .. $groups - 1) {
    my $programme = $n < $groups * 2 / 3 ? 0xD393 : 0xD312;
    my $at = int($n / 2);
    printf $lines "%04X %04X %04X %04X\n", $programme,
      $n % 2 == 0 ? (0x0548 + $at % 4, 0xE0CD, unpack "n", substr $name, $at % 4 * 2, 2)
                  : (0x2540 + $at % 16, unpack "n2", substr $text, $at % 16 * 4, 4);
  }
  close $lines or die "make_day: $rds encode failed\n";
  $SIG{PIPE} = $SIG{TERM};
  open my $sent, "<:raw", $ENV{SENT} or die "make_day: $ENV{SENT} cannot be read\n";
  my $bits = do { local $/; unpack "B*", <$sent> };
  close $sent;

  # One bit in a thousand: the distance to the next is drawn, and not each bit.
  my $turned = 0;
  for (my $i = 0; ; ) {
    $i += 1 + int(log(1 - random()) / log(1 - 0.001));
    last if $i >= length $bits;
    substr($bits, $i, 1) =~ tr/01/10/;
    $turned++;
  }
  my ($off, $on) = (int(length($bits) / 3), int(length($bits) / 3 + length($bits) / 12));
  substr($bits, $off, $on - $off) = join "", map { random() < 0.5 ? 0 : 1 } $off .. $on - 1;
  my $slip = int(length($bits) / 2);
  substr($bits, $slip, 1) = "";

  my $dropped = 0;
  open my $log, ">", "$file.dropped" or die "make_day: $file.dropped cannot be written\n";
  for ([0.75, 5], [0.8, 130], [0.85, 2375]) {
    my ($start, $length) = (int(length($bits) * $_->[0]), $_->[1]);
    substr($bits, $start, $length) = join "", map { random() < 0.5 ? 0 : 1 } 1 .. $length;
    print $log "$start $length\n";
    $dropped += $length;
  }
  close $log or die "make_day: $file.dropped cannot be written\n";

  open my $out, ">:raw", $file or die "make_day: $file cannot be written\n";
  print $out pack "B*", $bits;
  close $out or die "make_day: $file cannot be written\n";
  printf "bits %d\nturned %d\noff_air_s %.0f %.0f\nslip_s %.0f\nprogramme_s %.0f\ndropped %d\n", length $bits, $turned,
    $off / 1187.5, $on / 1187.5, $slip / 1187.5, int($groups * 2 / 3) * 104 / 1187.5, $dropped;
' -- "$1" "${2:-3}" "${3:-1}"
