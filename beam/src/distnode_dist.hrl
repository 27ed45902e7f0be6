%% SPDX-License-Identifier: Apache-2.0
%% What the four carriers are. Of each: TRANSPORT has its connections, DRIVER its sockets, OVER_TCP listens as OTP's carrier over TCP does,
%% and STANDARD is OTP's carrier that is the same on the wire.
-export([childspecs/0, listen/2, accept/1, accept_connection/5, setup/5, close/1, select/1, address/0,
         is_node_name/1, setopts/2, getopts/2]).

childspecs() -> distnode_carrier:childspecs(?MODULE, ?TRANSPORT).

listen(Name, Host) -> distnode_carrier:renamed(?TRANSPORT, ?OVER_TCP:listen(Name, Host)).

accept(Listen) -> distnode_carrier:accept(?TRANSPORT, ?DRIVER, Listen).

accept_connection(Acceptor, Socket, MyNode, Allowed, SetupTime) ->
    distnode_accept:start(?TRANSPORT, Acceptor, Socket, MyNode, Allowed, SetupTime).

setup(Node, Type, MyNode, LongOrShort, SetupTime) ->
    distnode_carrier:setup(?STANDARD, ?TRANSPORT, ?DRIVER, [Node, Type, MyNode, LongOrShort, SetupTime]).

close(Socket) -> ?DRIVER:close(Socket).

select(Node) -> ?OVER_TCP:select(Node).

address() -> distnode_carrier:renamed(?TRANSPORT, ?OVER_TCP:address()).

is_node_name(Node) -> ?OVER_TCP:is_node_name(Node).

setopts(Listen, Options) -> distnode_carrier:setopts(distnode_tcp, Listen, Options).

getopts(Listen, Options) -> distnode_tcp:getopts(Listen, Options).
