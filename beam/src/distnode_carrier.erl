%% SPDX-License-Identifier: Apache-2.0
%% What the carriers over IPv4 and IPv6, TCP and TLS have in common, beside the processes of connections: distnode_accept,
%% distnode_setup. Transport is distnode_tcp or distnode_tls, Driver is inet_tcp or inet6_tcp, Standard is OTP's own carrier.
-module(distnode_carrier).
-export([childspecs/2, renamed/2, accept/3, accept_loop/5, setup/4, hs_data/2, setopts/3, setup_options/0, heap_words/0]).

-include_lib("kernel/include/net_address.hrl").
-include_lib("kernel/include/dist_util.hrl").

%% net_sup starts these before net_kernel. Of two carriers at once the first starts the core, which is that of both.
childspecs(Carrier, Transport) ->
    {ok, Transport:childspecs() ++
         [#{id => Carrier, start => {distnode_core, start_link, []}, restart => permanent, shutdown => 2000,
            type => worker, modules => [distnode_core]}]}.

%% An address or an answer of the standard carrier over TCP, with the transport for its protocol: by it net_kernel finds who accepts.
renamed(Transport, #net_address{} = Address) -> Address#net_address{protocol = Transport};
renamed(Transport, {ok, {Socket, Address, Creation}}) -> {ok, {Socket, renamed(Transport, Address), Creation}};
renamed(_, Error) -> Error.

%% How a process of an own dial is started: as other carriers start theirs, but with a heap that a whole handshake fits into, so that
%% none of it waits for a garbage collection. A parameter of kernel, net_ticker_spawn_options, may say otherwise.
setup_options() -> [{min_heap_size, heap_words()} | dist_util:net_ticker_spawn_options()].

heap_words() -> 2586.

%% What a connection needs is loaded before the first one comes: strangers may hold all descriptors later.
accept(Transport, Driver, Listen) ->
    _ = code:ensure_modules_loaded([distnode_accept, distnode_access, distnode_address, distnode_script, distnode_setup, distnode_shake,
                                    Transport, dist_util]),
    spawn_opt(?MODULE, accept_loop, [Transport, Driver, self(), Listen, distnode_core:begun_anew()], [link, {priority, max}]).

%% A connection is of the node that was there before it was accepted: net_kernel hands both on as one. A later node doesn't take it.
accept_loop(Transport, Driver, Kernel, Listen, Begun) ->
    case Driver:accept(Listen) of
        {ok, Socket} ->
            Kernel ! {accept, self(), {Socket, Begun}, Driver:family(), Transport},
            hand_over(Driver, Kernel, Socket),
            ?MODULE:accept_loop(Transport, Driver, Kernel, Listen, begun_anew(Driver, Listen, Begun));
        Error -> exit(Error)
    end.

%% Where the node has begun anew since, what waits to be accepted may have been made before.
begun_anew(Driver, Listen, Begun) ->
    case distnode_core:begun_anew() of
        Begun -> Begun;
        Now ->
            close_waiting(Driver, Listen),
            Now
    end.

close_waiting(Driver, Listen) ->
    case Driver:accept(Listen, 0) of
        {ok, Socket} ->
            _ = Driver:close(Socket),
            close_waiting(Driver, Listen);
        {error, _} -> ok
    end.

%% The socket is passive, so nothing of it is in this process's queue.
hand_over(Driver, Kernel, Socket) ->
    receive
        {Kernel, controller, Pid} ->
            %% It may have ended, and the socket is this process's then.
            _ = [Driver:close(Socket) || Driver:controlling_process(Socket, Pid) =/= ok],
            Pid ! {self(), controller},
            ok;
        {Kernel, unsupported_protocol} -> exit(unsupported_protocol)
    end.

%% A node gets its name from the first one that it dials, and net_kernel alone gives names: that dial is the standard carrier's.
setup(Standard, _Transport, _Driver, Arguments) when node() =:= nonode@nohost -> apply(Standard, setup, Arguments);
setup(_Standard, Transport, Driver, Arguments) -> apply(distnode_setup, start, [Transport, Driver | Arguments]).

%% What dist_util does with a connection that comes up, and then. Its socket is the port or process that the emulator is given.
hs_data(Transport, Socket) ->
    (Transport:hs_data(Socket))#hs_data{
       socket = Transport:controller(Socket),
       f_getll = fun(Controller) -> {ok, Controller} end,
       f_address = fun(_, Node) -> distnode_address:remote(Transport, Socket, Node) end,
       mf_getstat = fun(_) -> getstat(Transport, Socket) end,
       mf_setopts = fun(_, Options) -> setopts(Transport, Socket, Options) end,
       mf_getopts = fun(_, Options) -> Transport:getopts(Socket, Options) end}.

getstat(Transport, Socket) ->
    case Transport:getstat(Socket, [recv_cnt, send_cnt, send_pend]) of
        {ok, Stat} ->
            [Received, Sent, Pending] = [proplists:get_value(Key, Stat, 0) || Key <- [recv_cnt, send_cnt, send_pend]],
            {ok, Received, Sent, Pending};
        Error -> Error
    end.

setopts(Transport, Socket, Options) ->
    case [Option || {Key, _} = Option <- Options, lists:member(Key, [active, deliver, packet])] of
        [] -> Transport:setopts(Socket, Options);
        Bad -> {error, {badopts, Bad}}
    end.
