%% What the tests have an Erlang node do: each function is called from the other node by rpc.
-module(pundewo_peer).

-export([main/0, run/2, echo_start/1, holder/0, server_start/2, tell_nodedown/2]).
-export([flood/5, flooding/0, close_socket/1, sink_start/1, sink_said/1, pairs_start/1, pairs_said/1]).
-export([init/1, handle_call/3, handle_cast/2, handle_info/2]).

%% Ends with its input, so that no node stays behind.
main() ->
    io:put_chars("ready\n"),
    io:get_line(''),
    halt().

%% Runs a case in a process of its own, and returns what it returned.
run(Case, Arguments) ->
    {Pid, Monitor} = spawn_monitor(fun() -> exit({returned, run_case(Case, Arguments)}) end),
    receive
        {'DOWN', Monitor, process, Pid, {returned, Answer}} -> Answer;
        {'DOWN', Monitor, process, Pid, Reason} -> {crashed, Reason}
    after 60000 -> timeout
    end.

%% What of a link, a monitor or a call is told.
run_case(node_kinds, [Node]) ->
    {net_adm:ping(Node), lists:member(Node, nodes()), lists:member(Node, nodes(hidden))};
run_case(send, [To, Terms]) ->
    [To ! Term || Term <- Terms],
    ok;
run_case(send_name, [Name, Node, Terms]) ->
    [{Name, Node} ! Term || Term <- Terms],
    ok;
run_case(cast, [To, Terms]) ->
    [gen_server:cast(To, Term) || Term <- Terms],
    ok;
run_case(call, [To, Term, Time]) ->
    try gen_server:call(To, Term, Time) of
        Answer -> {answer, Answer}
    catch
        exit:{Reason, {gen_server, call, _}} -> {exit, Reason}
    end;
run_case(call_pundewo, [To, Term]) ->
    try pundewo:call(To, Term) of
        Answer -> {answer, Answer}
    catch
        Class:Reason -> {Class, Reason}
    end;
run_case(late_call, [To, Term]) ->
    {exit, timeout} = run_case(call, [To, Term, 100]),
    receive Any -> {late, Any} after 700 -> nothing end;
run_case(calls, [To, Requests]) ->
    [gen_server:call(To, Request, 20000) || Request <- Requests];
run_case(monitor, [Target, Then]) ->
    Monitor = monitor(process, Target),
    Then =:= nothing orelse (Target ! Then),
    receive {'DOWN', Monitor, process, _, Reason} -> {down, Reason} after 60000 -> nothing end;
run_case(demonitor, [Target, Then]) ->
    Monitor = monitor(process, Target),
    demonitor(Monitor),
    Target ! Then,
    receive {'DOWN', Monitor, process, _, Reason} -> {down, Reason} after 500 -> nothing end;
run_case(link, [Pid, Then]) ->
    process_flag(trap_exit, true),
    link(Pid),
    Then =:= nothing orelse (Pid ! Then),
    receive {'EXIT', Pid, Reason} -> {exit, Reason} after 60000 -> nothing end;
run_case(unlink, [Pid, Then]) ->
    process_flag(trap_exit, true),
    link(Pid),
    unlink(Pid),
    Pid ! Then,
    receive {'EXIT', Pid, Reason} -> {exit, Reason} after 500 -> nothing end;
run_case(link_and_exit, [Pid, Messages, Reason]) ->
    link(Pid),
    [Pid ! {number, Number} || Number <- lists:seq(1, Messages)],
    exit(Reason);
run_case(exit_signal, [Pid, Reason]) ->
    exit(Pid, Reason),
    ok;
run_case(node_events, [Node]) ->
    ok = net_kernel:monitor_nodes(true, [{node_type, hidden}]),
    pong = net_adm:ping(Node),
    Up = node_event(Node),
    true = erlang:disconnect_node(Node),
    {Up, node_event(Node)};
run_case(ping, [Node]) ->
    net_adm:ping(Node).

node_event(Node) ->
    receive {Event, Node, [{node_type, hidden}]} -> Event after 60000 -> nothing end.

%% Tells a process as a node goes.
tell_nodedown(Node, To) ->
    ok = net_kernel:monitor_nodes(true, [{node_type, hidden}]),
    pong = net_adm:ping(Node),
    nodeup = node_event(Node),
    To ! watching,
    To ! node_event(Node).

%% A process that sends each message to whoever it says, or does what it is told.
echo_start(Name) ->
    Pid = spawn(fun echo/0),
    Name =:= none orelse register(Name, Pid),
    Pid.

echo() ->
    receive
        {send, To, Message} -> To ! Message, echo();
        {exit, Reason} -> exit(Reason);
        {trap, To} -> process_flag(trap_exit, true), To ! trapping, echo();
        {tell, To} -> receive Any -> To ! {got, Any} after 3000 -> To ! nothing end, echo();
        {info, Item, To} -> To ! process_info(self(), Item), echo();
        Other -> put(last, Other), echo()
    end.

%% How many processes are linked or monitor here, and what they have been told: for a connection that breaks.
holder() ->
    spawn(fun() -> process_flag(trap_exit, true), hold([]) end).

hold(Told) ->
    receive
        {link, Pid} -> link(Pid), hold(Told);
        {monitor, Pid} -> monitor(process, Pid), hold(Told);
        {told, To, Tag} -> To ! {Tag, lists:reverse(Told)}, hold(Told);
        {told_here, From} -> From ! {self(), lists:reverse(Told)}, hold(Told);
        {'EXIT', Pid, Reason} -> hold([{exit, Pid, Reason} | Told]);
        {'DOWN', _, process, Pid, Reason} -> hold([{down, Pid, Reason} | Told])
    end.

%% Processes that each send numbers, from 1 on, with a rest after so many. They have names while they do.
flood(To, Senders, Count, Size, Pace) ->
    Padding = binary:copy(<<0>>, Size),
    Send = fun(Sender) -> [paced(To, {number, Sender, Number, Padding}, Number rem Pace) || Number <- lists:seq(1, Count)] end,
    [spawn(fun() -> register(flood_name(), self()), Send(Sender) end) || Sender <- Senders],
    ok.

flood_name() -> list_to_atom("flood" ++ integer_to_list(erlang:unique_integer([positive]))).

flooding() -> [Name || Name <- registered(), lists:prefix("flood", atom_to_list(Name))].

%% Closes the socket of a connection below it.
close_socket(Node) -> [port_close(Port) || {Other, Port} <- erlang:system_info(dist_ctrl), Other =:= Node].

paced(To, Message, 0) ->
    timer:sleep(1),
    To ! Message;
paced(To, Message, _) ->
    To ! Message.

%% A process that looks whether the numbers of each sender come in order and once: how many have come, the last one, and how
%% many were no greater than one before.
sink_start(Name) ->
    Pid = spawn(fun() -> sink(#{}) end),
    register(Name, Pid),
    Pid.

sink(Said) ->
    receive
        {number, Sender, Number, _} ->
            {Count, Last, Wrong} = maps:get(Sender, Said, {0, 0, 0}),
            case Number > Last of
                true -> sink(Said#{Sender => {Count + 1, Number, Wrong}});
                false -> sink(Said#{Sender => {Count + 1, Last, Wrong + 1}})
            end;
        {said, From} -> From ! {said, maps:to_list(Said)}, sink(Said)
    end.

sink_said(Name) ->
    Name ! {said, self()},
    receive {said, Said} -> Said after 60000 -> timeout end.

%% Processes that trap exits, each for one process of the other node, with which it links itself if it is told so. What exit
%% signals they have got is counted by reasons.
pairs_start(Pids) ->
    Counter = spawn(fun() -> count(#{}) end),
    catch unregister(pairs),
    register(pairs, Counter),
    Pair = fun(Pid) -> spawn(fun() -> process_flag(trap_exit, true), pair(Pid, Counter) end) end,
    [Pair(Pid) || Pid <- Pids].

pair(Pid, Counter) ->
    receive
        link -> link(Pid), pair(Pid, Counter);
        {exit, Reason} -> exit(Reason);
        {'EXIT', Pid, Reason} -> Counter ! {count, Reason}, pair(Pid, Counter);
        Other -> Counter ! {count, {other, Other}}, pair(Pid, Counter)
    end.

count(Counts) ->
    receive
        {count, Reason} -> count(maps:update_with(Reason, fun(Count) -> Count + 1 end, 1, Counts));
        {said, From} -> From ! {said, lists:sort(maps:to_list(Counts))}, count(Counts)
    end.

pairs_said(Name) -> sink_said(Name).

%% A gen_server that answers as it is asked.
server_start(Name, State) ->
    {ok, Pid} = gen_server:start({local, Name}, ?MODULE, State, []),
    Pid.

init(State) -> {ok, State}.

handle_call({echo, Term}, _, State) -> {reply, Term, State};
handle_call({crash, Reason}, _, State) -> {stop, Reason, State};
handle_call(silent, _, State) -> {noreply, State};
handle_call(state, _, State) -> {reply, State, State}.

handle_cast(Term, _) -> {noreply, Term}.

handle_info(Term, _) -> {noreply, Term}.
