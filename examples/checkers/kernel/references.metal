// A reference that a function takes to a task, an address space, a file, a device, a node of the device tree or a buffer is put by it,
// once, and what it was to isn't used behind that. What is stored elsewhere or returned is forgotten.
sm references {
  state decl any_pointer r;
  decl any_fn_call other;
  decl any_arguments how;
  decl any_expr x, y, z;

  start:  { r = get_proc_task(how) } && ${ mc_is_local(r) } || { r = get_pid_task(how) } && ${ mc_is_local(r) }
              || { r = find_get_task_by_vpid(how) } && ${ mc_is_local(r) } || { r = get_task_mm(how) } && ${ mc_is_local(r) }
              || { r = mm_access(how) } && ${ mc_is_local(r) } || { r = get_mm_exe_file(how) } && ${ mc_is_local(r) } ==> r.held
        | { r = fget(how) } && ${ mc_is_local(r) } || { r = bus_find_device(how) } && ${ mc_is_local(r) }
              || { r = class_find_device(how) } && ${ mc_is_local(r) } || { r = usb_get_intf(how) } && ${ mc_is_local(r) }
              || { r = usb_get_dev(how) } && ${ mc_is_local(r) } ==> r.held
        | { r = of_find_node_by_name(how) } && ${ mc_is_local(r) } || { r = of_find_compatible_node(how) } && ${ mc_is_local(r) }
              || { r = of_get_child_by_name(how) } && ${ mc_is_local(r) } || { r = of_get_parent(how) } && ${ mc_is_local(r) }
              || { r = of_parse_phandle(how) } && ${ mc_is_local(r) } ==> r.held
        | { r = __bread(how) } && ${ mc_is_local(r) } || { r = __getblk(how) } && ${ mc_is_local(r) }
              || { r = __find_get_block(how) } && ${ mc_is_local(r) } ==> r.held
        | { 0 } ==> true=stop, false=start
        | { 1 } ==> true=start, false=stop;

  // A mention is all that is seen of a reference that is returned: `said` is behind one, and every other use leads back from there.
  r.held: { r = x } ==> true=r.held, false=r.stop
        | { IS_ERR_OR_NULL(r) } || { IS_ERR(r) } ==> true=r.stop, false=r.held
        | { r = x } ==> r.stop
        | { r } ==> r.said
        | $end_of_path$ ==> r.stop, { err("the reference %s isn't put", mc_identifier(r)); };
  r.said: { r } || { r != x } || { x != r } || { __builtin_expect(!!r, x) } ==> true=r.held, false=r.stop
        | { r == x } || { x == r } || { __builtin_expect(!!!r, x) } ==> true=r.stop, false=r.held
        | { put_task_struct(r) } || { mmput(r) } || { fput(r) } || { put_device(r) } || { usb_put_intf(r) } || { usb_put_dev(r) }
              || { of_node_put(r) } || { brelse(r) } || { __brelse(r) } || { put_bh(r) } ==> r.put
        | { x = r } || { r = x } ==> r.stop
        | { *r } || { r[x] } || { other(r, how) } || { other(x, r, how) } || { other(x, y, r, how) } || { other(x, y, z, r, how) }
              ==> r.held
        | $end_of_path$ ==> r.stop;
  r.put:  { *r } ==> r.stop, { err("%s is used after its reference was put", mc_identifier(r)); }
        | { put_task_struct(r) } || { mmput(r) } || { fput(r) } || { put_device(r) } || { usb_put_intf(r) } || { usb_put_dev(r) }
              || { of_node_put(r) } || { brelse(r) } || { __brelse(r) } || { put_bh(r) }
              ==> r.stop, { err("%s is put twice", mc_identifier(r)); };
}
