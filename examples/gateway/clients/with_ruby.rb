# with_ruby.rb PORT: a unit of work by ruby-stomp of Debian.
require 'stomp'
require 'timeout'
host = { host: '127.0.0.1', port: ARGV[0].to_i }
version = { 'accept-version' => '1.2', 'host' => 'localhost' }
clerk = Stomp::Client.new(hosts: [host], connect_headers: version, reliable: false)
clerk.publish('/queue/orders', 'from ruby', { 'x-shop' => 'a:b' })
orders = Queue.new
clerk.subscribe('/queue/orders', { ack: 'client-individual', id: 'orders' }) { |it| orders << it }
order = Timeout.timeout(5) { orders.pop }
puts "#{order.body} | x-shop #{order.headers['x-shop']} | protocol #{clerk.protocol}"
clerk.begin('t')
clerk.acknowledge(order, { transaction: 't' })
clerk.publish('/queue/bills', 'a bill from ruby', { transaction: 't' })
clerk.commit('t')
bank = Stomp::Client.new(hosts: [host], reliable: false)
bills = Queue.new
bank.subscribe('/queue/bills', { ack: 'client' }) { |it| bills << it }
bill = Timeout.timeout(5) { bills.pop }
puts "#{bill.body} | protocol #{bank.protocol}"
bank.acknowledge(bill)
sleep 0.3
bank.close
clerk.close
