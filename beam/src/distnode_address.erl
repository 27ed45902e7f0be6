%% SPDX-License-Identifier: Apache-2.0
%% Where peers are, as inet_tcp_dist has it: names, the port mapper, addresses and own networks.
-module(distnode_address).
-export([find/3, parts/3, remote/3, is_own_lan/1, nodelay/0]).

-include_lib("kernel/include/net_address.hrl").
-include_lib("kernel/include/dist_util.hrl").

%% Where a node accepts connections: {ok, Ip, Port} | {error, Why}
find(Driver, Name, Host) ->
    Epmd = net_kernel:epmd_module(),
    case call_epmd(Epmd, address_please, [Name, Host, Driver:family()]) of
        {ok, Ip, Port, _Version} -> {ok, Ip, Port};
        {ok, Ip} ->
            case Epmd:port_please(Name, Ip) of
                {port, Port, _Version} -> {ok, Ip, Port};
                _ -> {error, no_port}
            end;
        _ -> {error, no_address}
    end.

call_epmd(Epmd, Function, Arguments) ->
    case erlang:function_exported(Epmd, Function, length(Arguments)) of
        true -> apply(Epmd, Function, Arguments);
        false -> apply(erl_epmd, Function, Arguments)
    end.

%% The address of the peer at a socket: it ends the process where the connection is gone.
remote(Transport, Socket, Node) ->
    case {Transport:peername(Socket), split(Node)} of
        {{ok, {Ip, _} = Address}, {_, [$@ | Host]}} ->
            #net_address{address = Address, host = Host, protocol = Transport:protocol(), family = (driver(Ip)):family()};
        _ -> ?shutdown(no_node)
    end.

driver({_, _, _, _}) -> inet_tcp;
driver(_) -> inet6_tcp.

%% Where the parameter check_ip of kernel is true, only peers of this machine's own networks are let in: true | {false, Ip}
is_own_lan(Socket) ->
    case application:get_env(kernel, check_ip) of
        {ok, true} -> is_own_lan_of(inet:peername(Socket), inet:getif(Socket));
        _ -> true
    end.

is_own_lan_of({ok, {Ip, _}}, {ok, Interfaces}) ->
    Driver = driver(Ip),
    case [true || {Own, _, Mask} <- Interfaces, Driver:mask(Mask, Ip) =:= Driver:mask(Mask, Own)] of
        [] -> {false, Ip};
        _ -> true
    end;
is_own_lan_of(_, _) -> {false, unknown}.

nodelay() ->
    case application:get_env(kernel, dist_nodelay) of
        {ok, false} -> {nodelay, false};
        _ -> {nodelay, true}
    end.

%% The parts of a node's name: it ends the process where the host has dots and may have none, or the other way round.
parts(Driver, Node, LongOrShort) ->
    case split(Node) of
        {Name, [$@ | Host]} when Host =/= [] ->
            IsLong = lists:member($., Host),
            case {LongOrShort, IsLong} of
                {longnames, false} ->
                    case Driver:parse_address(Host) of
                        {ok, _} -> {Name, Host};
                        _ -> bad_host("running", Host, Node)
                    end;
                {shortnames, true} -> bad_host("NOT running", Host, Node);
                _ -> {Name, Host}
            end;
        _ ->
            error_logger:error_msg("** Nodename ~p illegal **~n", [Node]),
            ?shutdown(Node)
    end.

split(Node) -> lists:splitwith(fun(C) -> C =/= $@ end, atom_to_list(Node)).

-spec bad_host(string(), string(), node()) -> no_return().
bad_host(How, Host, Node) ->
    error_logger:error_msg("** System ~s to use fully qualified hostnames **~n** Hostname ~ts is illegal **~n", [How, Host]),
    ?shutdown(Node).
