%% SPDX-License-Identifier: Apache-2.0
%% Software that others have written, on this carrier and on OTP's own: three nodes of RabbitMQ, of Mnesia, and of a release of Elixir.
%% Node n has the address 127.0.0.n. A cut drops each packet between one of them and the others, so that old connections are left
%% without a word, and both sides notice by ticks.
-module(real_software).
-export([main/0, main/1]).
-export([leader/0, is_running/1, begin_table/1, begin_writing/0, written/0, end_writing/0, content/0, groups/0]).

-include_lib("amqp_client/include/amqp_client.hrl").

-define(QUEUE, <<"numbers">>).
-define(LAST, 10000).
-define(WAIT, 180000).   % milliseconds
-define(TICK_TIME, "8"). % seconds

main() -> main([]).
main(Words) ->
    cases:main(fun(_) -> [{Name ++ "_" ++ atom_to_list(Carrier), fun() -> Body(Carrier) end}
                          || {Name, Body} <- [{"rabbitmq", fun rabbitmq/1}, {"mnesia", fun mnesia/1}, {"elixir", fun elixir/1}],
                             Carrier <- [inet_tcp, distnode]] end, Words).

%% ---- what they have in common

n(Node) -> test_nodes:name(Node).
c(Node, M, F, A) -> test_nodes:call(Node, M, F, A, ?WAIT).
wait(Condition) -> test_nodes:wait(Condition, ?WAIT).

%% How many milliseconds it takes until something was done and a condition holds.
awaited(Condition) -> awaited(fun() -> ok end, Condition).

awaited(Do, Condition) ->
    {Took, true} = timer:tc(fun() -> Do(), wait(Condition) end),
    Took div 1000.

%% By which carrier they are connected; and where it is this one, that the node and net_kernel have the same peers.
are_carried(Carrier, Nodes) ->
    [true = is_pid(c(Node, erlang, whereis, [distnode_core])) =:= (Carrier =:= distnode) || Node <- Nodes],
    [cases:agreed(Nodes) || Carrier =:= distnode].

carrier(inet_tcp) -> "";
carrier(distnode) -> "-proto_dist distnode -pa " ++ os:getenv("EBIN").

address(I) -> "127.0.0." ++ integer_to_list(I).
name(Short, I) -> Short ++ integer_to_list(I) ++ "@" ++ address(I).

own_address(I) ->
    lists:flatten(io_lib:format(" -kernel inet_dist_use_interface {127,0,0,~b} -kernel inet_dist_connect_options [{ip,{127,0,0,~b}}]"
                                " -kernel net_ticktime ~s", [I, I, ?TICK_TIME])).

%% Node i and all others, both ways.
cut(I) -> rules("-A", I).
heal(I) -> rules("-D", I).

rules(What, I) ->
    [{0, _} = run(["iptables", What, "INPUT", "-s", From, "-d", To, "-j", "DROP"], [])
     || Other <- [1, 2, 3], Other =/= I, {From, To} <- [{address(I), address(Other)}, {address(Other), address(I)}]].

run([Program | Words], Environment) ->
    Port = open_port({spawn_executable, os:find_executable(Program)}, [{args, Words}, {env, Environment}, exit_status, stderr_to_stdout]),
    ran(Port, []).

ran(Port, Said) ->
    receive
        {Port, {data, More}} -> ran(Port, [Said, More]);
        {Port, {exit_status, Status}} -> {Status, lists:flatten(Said)}
    after ?WAIT -> error({still_runs, lists:flatten(Said)})
    end.

%% ---- RabbitMQ: a quorum queue. The node of its leader is killed, another is cut off, and numbers are published all the time.

rabbitmq(Carrier) ->
    {ok, _} = application:ensure_all_started(amqp_client),
    Folder = filename:join(os:getenv("LOGS"), "rabbitmq_" ++ atom_to_list(Carrier)),
    configured(Folder),
    cases:with([rabbit(I, Carrier, Folder) || I <- [1, 2, 3]],
               fun([One, Two, Three] = All) ->
                       true = wait(fun() -> are_running(All) end),
                       #'queue.declare_ok'{} = with_channel(2, fun declared/1),
                       'r2@127.0.0.2' = c(One, ?MODULE, leader, []),
                       with_channel(1, fun(Channel) -> published(One, Two, Three, Channel, Carrier, Folder) end)
               end).

%% Numbers are published while the leader's node is killed, while it comes back, while r3 is cut off, before and after that is noticed,
%% and while r3 comes back.
published(One, Two, Three, Channel, Carrier, Folder) ->
    #'confirm.select_ok'{} = amqp_channel:call(Channel, #'confirm.select'{}),
    First = publisher(1, 3000, Channel),
    confirmed(1500, First),
    test_nodes:kill(Two),
    confirmed(3000, First),
    Second = publisher(3001, 5000, Channel),
    cases:with([rabbit(2, Carrier, Folder)],
               fun([Again]) ->
                       confirmed(5000, Second),
                       Joined = awaited(fun() -> are_running([One, Again, Three]) end),
                       {Noticed, Whole} = cut_off([One, Again], Three, Channel),
                       {0, "2" ++ _} = control(Carrier, Folder),
                       Twice = with_channel(3, fun consumed/1),
                       are_carried(Carrier, [One, Again, Three]),
                       {said, "~b numbers confirmed, and all came in order, ~b of them twice; r2 was killed, and all ran ~b ms after it "
                        "was back; r3 was cut off, which was noticed after ~b ms, and all ran ~b ms after the cut was healed",
                        [?LAST, Twice, Joined, Noticed, Whole]}
               end).

configured(Folder) ->
    ok = filelib:ensure_dir(filename:join(Folder, "x")),
    Nodes = [io_lib:format("cluster_formation.classic_config.nodes.~b = ~s~n", [I, name("r", I)]) || I <- [1, 2, 3]],
    ok = file:write_file(filename:join(Folder, "rabbitmq.conf"),
                         ["cluster_partition_handling = pause_minority\ndisk_free_limit.absolute = 50MB\n"
                          "cluster_formation.peer_discovery_backend = classic_config\n", Nodes]),
    ok = file:write_file(filename:join(Folder, "environment"), "").

%% As systemd starts it: so it is one process, the emulator.
rabbit(I, Carrier, Folder) ->
    Own = filename:join(Folder, integer_to_list(I)),
    Environment = [{"RABBITMQ_NODENAME", name("r", I)}, {"RABBITMQ_NODE_IP_ADDRESS", "127.0.0.1"},
                   {"RABBITMQ_NODE_PORT", integer_to_list(port(I))}, {"RABBITMQ_DIST_PORT", integer_to_list(20000 + port(I))},
                   {"RABBITMQ_CONFIG_FILE", filename:join(Folder, "rabbitmq.conf")}, {"RABBITMQ_MNESIA_BASE", Own},
                   {"RABBITMQ_LOG_BASE", Own}, {"RABBITMQ_LOGS", "-"}, {"RABBITMQ_ENABLED_PLUGINS_FILE", filename:join(Own, "plugins")},
                   {"RUNNING_UNDER_SYSTEMD", "true"} | rabbit_names(Folder)],
    {name("r", I), {program, [rabbit_program("rabbitmq-server")],
                    fun(Agent) ->
                            Words = io_lib:format("~s ~s -pa ~s -setcookie test -run test_agent main ~b",
                                                  [carrier(Carrier), own_address(I), os:getenv("TESTS"), Agent]),
                            [{"RABBITMQ_SERVER_ADDITIONAL_ERL_ARGS", lists:flatten(Words)} | Environment]
                    end}, []}.

%% Its scripts would take LOGS as theirs.
rabbit_names(Folder) ->
    [{"RABBITMQ_USE_LONGNAME", "true"}, {"RABBITMQ_CONF_ENV_FILE", filename:join(Folder, "environment")}, {"LOGS", false}].
rabbit_program(Name) -> "/usr/lib/rabbitmq/bin/" ++ Name.
port(I) -> 5670 + I.

%% Its own tool, which begins its distribution at run time, asks how many are connected.
control(Carrier, Folder) ->
    run([rabbit_program("rabbitmqctl"), "-n", name("r", 1), "--longnames", "--quiet", "eval", "length(nodes())."],
        [{"RABBITMQ_CTL_ERL_ARGS", carrier(Carrier) ++ " -setcookie test"} | rabbit_names(Folder)]).

are_running(Nodes) ->
    Names = lists:sort([n(Node) || Node <- Nodes]),
    case [n(Node) || Node <- Nodes, not c(Node, ?MODULE, is_running, [Names])] of
        [] -> true;
        Others -> {not_running, Others}
    end.

%% In a node: it runs, and with these.
is_running(Names) ->
    rabbit:is_running() andalso lists:sort(rabbit_nodes:all_running()) =:= Names andalso rabbit_node_monitor:partitions() =:= [].

with_channel(I, Body) ->
    {ok, Connection} = amqp_connection:start(#amqp_params_network{host = "127.0.0.1", port = port(I)}),
    {ok, Channel} = amqp_connection:open_channel(Connection),
    try Body(Channel)
    after amqp_connection:close(Connection)
    end.

declared(Channel) ->
    Arguments = [{<<"x-queue-type">>, longstr, <<"quorum">>}],
    amqp_channel:call(Channel, #'queue.declare'{queue = ?QUEUE, durable = true, arguments = Arguments}).

%% In a node: where the queue's leader is. It begins where the queue was declared.
leader() ->
    {ok, Queue} = rabbit_amqqueue:lookup(rabbit_misc:r(<<"/">>, queue, ?QUEUE)),
    {_, Node} = amqqueue:get_pid(Queue),
    Node.

publisher(From, To, Channel) ->
    Self = self(),
    spawn_link(fun() -> publish(From, To, Channel, Self) end).

publish(From, To, _, _) when From > To -> ok;
publish(From, To, Channel, Test) ->
    Next = min(From + 50, To + 1),
    [say(integer_to_binary(I), Channel) || I <- lists:seq(From, Next - 1)],
    true = amqp_channel:wait_for_confirms(Channel, ?WAIT div 1000),
    Test ! {self(), Next - 1},
    publish(Next, To, Channel, Test).

say(Text, Channel) ->
    ok = amqp_channel:call(Channel, #'basic.publish'{routing_key = ?QUEUE}, #amqp_msg{props = #'P_basic'{delivery_mode = 2}, payload = Text}).

confirmed(Number, Publisher) ->
    receive {Publisher, Last} when Last >= Number -> ok
    after ?WAIT -> error({not_confirmed, Number})
    end.

cut_off([One, Two], Three, Channel) ->
    Publisher = publisher(5001, 7000, Channel),
    confirmed(6000, Publisher),
    Noticed = awaited(fun() -> cut(3), confirmed(7000, Publisher) end,
                      fun() -> c(One, erlang, nodes, []) =:= [n(Two)] andalso c(Three, erlang, nodes, []) =:= [] end),
    Later = publisher(7001, ?LAST, Channel),
    confirmed(8500, Later),
    Whole = awaited(fun() -> heal(3), confirmed(?LAST, Later) end, fun() -> are_running([One, Two, Three]) end),
    say(<<"end">>, Channel),
    {Noticed, Whole}.

%% How many came twice; each comes for the first time in its order.
consumed(Channel) ->
    #'basic.consume_ok'{} = amqp_channel:subscribe(Channel, #'basic.consume'{queue = ?QUEUE}, self()),
    receive #'basic.consume_ok'{} -> ok end,
    consumed(1, 0, Channel).

consumed(Next, Twice, Channel) ->
    receive
        {#'basic.deliver'{delivery_tag = Tag}, #amqp_msg{payload = Text}} ->
            ok = amqp_channel:cast(Channel, #'basic.ack'{delivery_tag = Tag}),
            case Text of
                <<"end">> when Next =:= ?LAST + 1 -> Twice;
                _ ->
                    case binary_to_integer(Text) of
                        Next -> consumed(Next + 1, Twice, Channel);
                        Before when Before < Next -> consumed(Next, Twice + 1, Channel)
                    end
            end
    after ?WAIT -> error({missing, Next})
    end.

%% ---- Mnesia: a table on the discs of all three. Two count in it and write rows while the third is killed and comes back.

mnesia(Carrier) ->
    cases:with([mnesia_node(I, Carrier) || I <- [1, 2, 3]],
               fun([One, Two, Three] = All) ->
                       Names = [n(Node) || Node <- All],
                       [pong = c(One, net_adm, ping, [Name]) || Name <- Names],
                       ok = c(One, mnesia, create_schema, [Names]),
                       [ok = c(Node, mnesia, start, []) || Node <- All],
                       ok = c(One, ?MODULE, begin_table, [Names]),
                       [true = c(Node, ?MODULE, begin_writing, []) || Node <- [One, Two]],
                       have_written(300, [One, Two]),
                       test_nodes:kill(Three),
                       have_written(300, [One, Two]),
                       cases:with([mnesia_node(3, Carrier)], fun([Again]) -> comes_back(One, Two, Again, Carrier) end)
               end).

mnesia_node(I, Carrier) ->
    Folder = filename:join(os:getenv("LOGS"), lists:flatten(io_lib:format("mnesia_~s_~b", [Carrier, I]))),
    {"m" ++ integer_to_list(I), case Carrier of inet_tcp -> otp; distnode -> ours end, ["-mnesia", "dir", "\"" ++ Folder ++ "\""]}.

comes_back(One, Two, Again, Carrier) ->
    All = [One, Two, Again],
    {Took, ok} = timer:tc(fun() ->
                                  ok = c(Again, mnesia, start, []),
                                  c(Again, mnesia, wait_for_tables, [[numbers], ?WAIT])
                          end),
    have_written(300, [One, Two]),
    Committed = lists:sum([c(Node, ?MODULE, end_writing, []) || Node <- [One, Two]]),
    Same = fun() -> [{Committed, Committed, Sum}] = lists:usort([c(Node, ?MODULE, content, []) || Node <- All]), is_binary(Sum) end,
    true = wait(fun() -> try Same() catch error:{badmatch, Other} -> Other end end),
    [true = lists:sort(c(Node, mnesia, system_info, [running_db_nodes])) =:= lists:sort([n(X) || X <- All]) || Node <- All],
    are_carried(Carrier, All),
    {said, "~b transactions of two nodes committed while the third was killed and came back; all three have the same ~b rows; it had "
     "its table ~b ms after its start", [Committed, Committed + 1, Took div 1000]}.

have_written(More, Nodes) ->
    [begin
         Before = c(Node, ?MODULE, written, []),
         true = wait(fun() -> c(Node, ?MODULE, written, []) >= Before + More end)
     end || Node <- Nodes].

%% In a node.
begin_table(Nodes) ->
    {atomic, ok} = mnesia:create_table(numbers, [{disc_copies, Nodes}]),
    mnesia:dirty_write({numbers, sum, 0}).

begin_writing() -> register(writer, spawn(fun() -> write(0) end)).

%% Each transaction reads a sum that both nodes write, and writes a row of its own.
write(Done) ->
    receive
        {written, From} -> From ! {writer, Done}, write(Done);
        {finish, From} -> From ! {writer, Done}
    after 0 ->
            case mnesia:transaction(fun() ->
                                            [{numbers, sum, Sum}] = mnesia:read(numbers, sum, write),
                                            ok = mnesia:write({numbers, sum, Sum + 1}),
                                            mnesia:write({numbers, {node(), Done + 1}, Sum + 1})
                                    end) of
                {atomic, ok} -> write(Done + 1);
                {aborted, _} -> write(Done)
            end
    end.

written() -> ask(written).
end_writing() -> ask(finish).

ask(What) ->
    writer ! {What, self()},
    receive {writer, Done} -> Done end.

%% The sum, how many rows beside it, and a checksum of all.
content() ->
    Rows = lists:sort(ets:tab2list(numbers)),
    {numbers, sum, Sum} = lists:keyfind(sum, 2, Rows),
    {Sum, length(Rows) - 1, erlang:md5(term_to_binary(Rows))}.

%% ---- Elixir: a release whose keeper has one name in all nodes (global) and whose four workers in each node are one group (pg)

elixir(Carrier) ->
    Release = release(),
    cases:with([elixir_node(I, Carrier, Release) || I <- [1, 2, 3]],
               fun(All) ->
                       joined(All),
                       true = wait(fun() -> is_whole(All) end),
                       {Holder, I} = holder(All),
                       Others = All -- [Holder],
                       TakenOver = awaited(fun() -> test_nodes:kill(Holder) end, fun() -> is_whole(Others) end),
                       cases:with([elixir_node(I, Carrier, Release)], fun([Again]) -> again([Again | Others], TakenOver, Carrier) end)
               end).

again(Nodes, TakenOver, Carrier) ->
    Back = awaited(fun() -> joined(Nodes) end, fun() -> is_whole(Nodes) end),
    {Noticed, Whole} = cut_in_two(Nodes),
    are_carried(Carrier, Nodes),
    {said, "the keeper's name was taken over ~b ms after its node was killed, and all agreed ~b ms after that was back; a cut was "
     "noticed after ~b ms, each part had its keeper, and ~b ms after it was healed all agreed on one", [TakenOver, Back, Noticed, Whole]}.

%% It is made once, as docs/BEAM.md has it.
release() ->
    Folder = filename:join(os:getenv("LOGS"), "my_app"),
    Release = filename:join(Folder, "release"),
    case filelib:is_dir(Release) of
        true -> ok;
        false ->
            {0, _} = run(["cp", "-r", filename:join(os:getenv("BENCH"), "my_app"), Folder], []),
            {0, _} = run(["sh", "-c", "cd " ++ Folder ++ " && exec mix release --quiet --path " ++ Release],
                         [{"MIX_ENV", "prod"}, {"DISTNODE", os:getenv("LIBRARY")}, {"CARRIER", filename:join(os:getenv("EBIN"), "..")}])
    end,
    ok = file:write_file(filename:join(Folder, "vm.args"), "# OTP's own carrier\n"),
    Release.

elixir_node(I, Carrier, Release) ->
    Own = [{"RELEASE_VM_ARGS", filename:join(filename:dirname(Release), "vm.args")} || Carrier =:= inet_tcp],
    {name("e", I), {program, [filename:join(Release, "bin/my_app"), "start"],
                    fun(Agent) ->
                            [{"RELEASE_NODE", name("e", I)}, {"RELEASE_DISTRIBUTION", "name"}, {"RELEASE_COOKIE", "test"},
                             {"RELEASE_TMP", filename:join(os:getenv("LOGS"), name("e", I))},
                             {"ERL_ZFLAGS", own_address(I) ++ agent(Agent)} | Own]
                    end}, []}.

%% Code in embedded mode isn't looked for.
agent(Port) ->
    Load = lists:join($,, [io_lib:format("{module,_}=code:load_abs(\"~s/~s\")", [os:getenv("TESTS"), Module])
                           || Module <- [test_agent, ?MODULE]]),
    lists:flatten(io_lib:format(" -eval '~s,test_agent:main([\"~b\"]).'", [Load, Port])).

joined(Nodes) -> [true = c(A, net_kernel, connect_node, [n(B)]) || A <- Nodes, B <- Nodes, n(A) < n(B)].

%% All of these nodes, and no other, are connected; they agree on one keeper, who is one of theirs, and on the group.
is_whole(Nodes) ->
    Names = lists:sort([n(Node) || Node <- Nodes]),
    case lists:usort([c(Node, ?MODULE, groups, []) || Node <- Nodes]) of
        [{Names, Keeper, Workers}] when is_pid(Keeper) ->
            lists:sort([{Name, 4} || Name <- Names]) =:= counted(Workers) andalso lists:member(node_of(Keeper, Nodes), Names);
        Other -> Other
    end.

counted(Workers) -> lists:sort([{Node, length([W || {At, W} <- Workers, At =:= Node])} || Node <- lists:usort([At || {At, _} <- Workers])]).

%% In a node.
groups() ->
    {lists:sort([node() | nodes()]), global:whereis_name(keeper), lists:sort([{node(Pid), Pid} || Pid <- pg:get_members(workers)])}.

node_of(Keeper, [Node | _]) -> c(Node, erlang, node, [Keeper]).

holder(Nodes) ->
    {_, Keeper, _} = c(hd(Nodes), ?MODULE, groups, []),
    Name = node_of(Keeper, Nodes),
    [Holder] = [Node || Node <- Nodes, n(Node) =:= Name],
    {Holder, list_to_integer(string:trim(filename:extension(atom_to_list(Name)), leading, "."))}.

cut_in_two(Nodes) ->
    {Holder, I} = holder(Nodes),
    Others = Nodes -- [Holder],
    Noticed = awaited(fun() -> cut(I) end, fun() -> is_whole([Holder]) =:= true andalso is_whole(Others) end),
    {Noticed, awaited(fun() -> heal(I), joined(Nodes) end, fun() -> is_whole(Nodes) end)}.
