# Starts a command on pipes that stay open, lets it list a word or, as one that lists nothing before the input's end, wait a second, sends it
# a signal, and tells how it ended and that nobody holds its output any more.
# usage: perl signalled.pl SIGNAL lists|waits COMMAND [ARGUMENT ...]
use strict;
use warnings;
use Config;

my ($signal, $how, @command) = @ARGV;
pipe(my $words, my $to_words) or die "pipe: $!";
pipe(my $from_list, my $list) or die "pipe: $!";
my $pid = fork // die "fork: $!";
if (!$pid) {
    close $_ for $to_words, $from_list;
    open(STDIN, '<&', $words) or die "standard input: $!";
    open(STDOUT, '>&', $list) or die "standard output: $!";
    close $_ for $words, $list;
    $SIG{$_} = 'DEFAULT' for qw(INT HUP TERM);
    exec { $command[0] } @command or die "$command[0]: $!";
}
close $_ for $words, $list;
syswrite($to_words, "evler\n");
my $line;
if ($how eq 'lists') { sysread($from_list, $line, 100) or die 'no line' } else { sleep 1 }
kill $signal, $pid;
waitpid($pid, 0);
my @names = split ' ', $Config{sig_name};
printf 'ended by %s', $? & 127 ? $names[$? & 127] : 'status ' . ($? >> 8);
alarm 10;
print sysread($from_list, $line, 100) ? ", and wrote more\n" : ", and its output closed\n";
