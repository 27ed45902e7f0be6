%% SPDX-License-Identifier: Apache-2.0
%% The connections of a carrier over TCP. distnode_tls has the same calls.
-module(distnode_tcp).
-export([protocol/0, childspecs/0, packet/0, messages/0, await/4, connect/5, is_certified/2, controller/1, hs_data/1]).
-export([send/2, recv/3, setopts/2, getopts/2, getstat/2, sockname/1, peername/1, controlling_process/2, close/1]).

-include_lib("kernel/include/dist_util.hrl").

%% What net_kernel:node_info/1 has of a peer, as with OTP's carrier.
protocol() -> tcp.

%% What net_sup starts for it.
childspecs() -> [].

%% The bytes of a frame's length during the handshake.
packet() -> 2.

messages() -> {tcp, tcp_closed, tcp_error}.

%% The socket of a connection that the acceptor hands over to this process: it ends the process where there is none.
await(Acceptor, Socket, _Allowed, _Wait) ->
    receive {Acceptor, controller} -> ok end,
    case distnode_address:is_own_lan(Socket) of
        true -> Socket;
        {false, Ip} ->
            error_logger:error_msg("** Connection attempt from disallowed IP ~w ** ~n", [Ip]),
            ?shutdown(no_node)
    end.

connect(Driver, Ip, Port, _Host, Wait) ->
    Options = application:get_env(kernel, inet_dist_connect_options, []),
    Driver:connect(Ip, Port, Options ++ [binary, {active, false}, {packet, packet()}, distnode_address:nodelay()], Wait).

%% Nobody shows a certificate.
is_certified(_Socket, _Host) -> true.

%% The emulator's connection is there as long as this port or process is.
controller(Socket) -> Socket.

%% What dist_util does with a connection that comes up, where that differs. Its socket is passive, and has the option nodelay.
hs_data(Socket) ->
    #hs_data{
       f_setopts_pre_nodeup = fun(_) -> setopts(Socket, [{packet, 4}]) end,
       f_setopts_post_nodeup = fun(_) -> setopts(Socket, [{active, true}, {deliver, port}, binary]) end,
       mf_tick = fun(_) -> tick(Socket) end,
       f_handshake_complete = fun(_, _, _) -> ok end}.

tick(Socket) ->
    case inet_tcp:send(Socket, [], [force]) of
        {error, closed} = Error ->
            self() ! {tcp_closed, Socket},
            Error;
        Other -> Other
    end.

send(Socket, Body) -> inet_tcp:send(Socket, Body).
recv(Socket, Length, Wait) -> inet_tcp:recv(Socket, Length, Wait).
setopts(Socket, Options) -> inet:setopts(Socket, Options).
getopts(Socket, Options) -> inet:getopts(Socket, Options).
getstat(Socket, Options) -> inet:getstat(Socket, Options).
sockname(Socket) -> inet:sockname(Socket).
peername(Socket) -> inet:peername(Socket).
controlling_process(Socket, Pid) -> inet_tcp:controlling_process(Socket, Pid).
close(Socket) -> inet_tcp:close(Socket).
