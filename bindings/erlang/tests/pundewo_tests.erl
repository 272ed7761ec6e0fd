%% EUnit tests of pundewo.erl. The node to try, and its names, are in the environment of the application kernel: the Rust tests
%% start a node and set them.
-module(pundewo_tests).

-include_lib("eunit/include/eunit.hrl").

-export([run/1]).

run(Node) ->
    application:set_env(kernel, pundewo_node, Node),
    eunit:test(?MODULE, [no_tty]).

node_to_try() ->
    {ok, Node} = application:get_env(kernel, pundewo_node),
    Node.

connect_test() ->
    ?assertEqual(ok, pundewo:connect(node_to_try())),
    ?assertEqual({error, noconnection}, pundewo:connect('nobody@127.0.0.1')).

names_test() ->
    ?assertEqual([counter], pundewo:names(node_to_try())).

is_node_test() ->
    ?assert(pundewo:is_node(node_to_try())),
    ?assertNot(pundewo:is_node('nobody@127.0.0.1')).

call_test() ->
    Counter = {counter, node_to_try()},
    Before = pundewo:call(Counter, read),
    ok = gen_server:cast(Counter, {add, 4}),
    Counter ! {add, 3},
    ?assertEqual(Before + 7, pundewo:call(Counter, read)).

refused_test() ->
    ?assertError({refused, unknown_request}, pundewo:call({counter, node_to_try()}, nonsense)),
    ?assertError({refused, not_an_integer}, pundewo:call({counter, node_to_try()}, {add, one})),
    ?assertError({refused, unknown_request}, pundewo:call({pundewo, node_to_try()}, nonsense)).

noproc_test() ->
    Nobody = {nobody, node_to_try()},
    ?assertExit({noproc, {gen_server, call, [Nobody, read, 5000]}}, pundewo:call(Nobody, read)).

monitor_test() ->
    Nobody = {nobody, node_to_try()},
    Monitor = pundewo:monitor(Nobody),
    ?assertEqual({Nobody, noproc}, down(Monitor, 5000)),
    Counter = {counter, node_to_try()},
    Live = pundewo:monitor(Counter),
    ?assertEqual(nothing, down(Live, 300)),
    ?assert(demonitor(Live, [flush, info])),
    Cut = pundewo:monitor(Counter),
    erlang:disconnect_node(node_to_try()),
    ?assertEqual({Counter, noconnection}, down(Cut, 5000)),
    ?assertEqual(nothing, down(Cut, 300)),
    ?assertEqual(ok, pundewo:connect(node_to_try())).

down(Monitor, Time) ->
    receive
        {'DOWN', Monitor, process, Object, Reason} -> {Object, Reason}
    after Time -> nothing
    end.
