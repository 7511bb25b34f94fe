# with_perl.pl PORT: receipts and a transaction by libnet-stomp-perl of Debian.
use strict;
use warnings;
use Net::Stomp;

sub connected {
    my $it = Net::Stomp->new({hostname => '127.0.0.1', port => $ARGV[0]});
    $it->connect({login => 'user', passcode => 'word'});
    return $it;
}

my $clerk = connected();
$clerk->send_with_receipt({destination => '/queue/orders', body => 'from perl'}) or die 'no receipt';
$clerk->subscribe({destination => '/queue/orders', ack => 'client', id => 'orders'});
my $order = $clerk->receive_frame({timeout => 5}) or die 'no message';
print $order->body, "\n";
$clerk->send_transactional({destination => '/queue/bills', body => 'a bill from perl'}) or die 'not sent';
$clerk->ack({frame => $order});
$clerk->disconnect;
my $bank = connected();
$bank->subscribe({destination => '/queue/bills', ack => 'client', id => 'bills'});
my $bill = $bank->receive_frame({timeout => 5}) or die 'no message';
print $bill->body, "\n";
$bank->ack({frame => $bill});
$bank->disconnect;
