// Memory is used before it is known that there is any, where a test has shown that there is none, or after it was freed; or is freed twice.
// The functions are those of Linux, and the tests have the forms that its macros leave behind the preprocessor.
sm allocations {
  state decl any_pointer v;
  decl any_arguments how;
  decl any_expr x, n;

  start:   { v = kmalloc(how) } || { v = kzalloc(how) } || { v = kcalloc(how) } || { v = kmalloc_array(how) } || { v = kmalloc_node(how) }
               || { v = kzalloc_node(how) } || { v = kmemdup(how) } || { v = kstrdup(how) } || { v = kasprintf(how) }
               || { v = vmalloc(how) } || { v = vzalloc(how) } || { v = kvmalloc(how) } || { v = kvzalloc(how) } || { v = kvcalloc(how) }
               || { v = kvmalloc_array(how) } || { v = devm_kmalloc(how) } || { v = devm_kzalloc(how) } || { v = devm_kcalloc(how) }
               || { v = kmem_cache_alloc(how) } || { v = kmem_cache_zalloc(how) } ==> v.untested;
  start:   { kfree(v) } || { kvfree(v) } || { vfree(v) } || { kfree_sensitive(v) } || { kmem_cache_free(x, v) } ==> v.freed
         | { __builtin_unreachable() } || { panic(how) } ==> stop
         | { 0 } ==> true=stop, false=start
         | { 1 } ==> true=start, false=stop;

  // What others reach too may be null behind a failure that they are told of.
  v.untested: { v } && ${ mc_is_local(v) } || { v = x } && ${ mc_is_local(v) } || { __builtin_expect(!!v, x) } && ${ mc_is_local(v) }
               || { 0 != v } && ${ mc_is_local(v) } || { (void *)0 != v } && ${ mc_is_local(v) } ==> true=v.stop, false=v.null
         // (the last is WARN_ON_ONCE(!v))
         | { __builtin_expect(!!!v, x) } && ${ mc_is_local(v) } || { 0 == v } && ${ mc_is_local(v) }
               || { (void *)0 == v } && ${ mc_is_local(v) } || { __builtin_expect(!!!!!v, x) } && ${ mc_is_local(v) }
               ==> true=v.null, false=v.stop
         | { v } || { v = x } || { __builtin_expect(!!v, x) } || { __builtin_expect(!!!v, x) } || { 0 != v } || { 0 == v }
               || { (void *)0 != v } || { (void *)0 == v } || { __builtin_expect(!!!!!v, x) } ==> true=v.stop, false=v.stop
         | { kfree(v) } || { kvfree(v) } || { vfree(v) } || { kmem_cache_free(x, v) } ==> v.freed
         | { *v } || { v[x] } || { memcpy(v, x, n) } || { memset(v, x, n) }
               ==> v.stop, { err("%s is used before it is known that the allocation succeeded", mc_identifier(v)); };
  v.null:  { v } || { __builtin_expect(!!v, x) } || { 0 != v } || { (void *)0 != v } ==> true=v.stop, false=v.null
         | { __builtin_expect(!!!v, x) } || { 0 == v } || { (void *)0 == v } || { __builtin_expect(!!!!!v, x) } ==> true=v.null, false=v.stop
         | { *v } && ${ mc_is_local(v) } || { v[x] } && ${ mc_is_local(v) } ==> v.stop, { err("%s is null here", mc_identifier(v)); };
  v.freed: { *v } || { v[x] } ==> v.stop, { err("%s is used after it was freed", mc_identifier(v)); }
         | { memcpy(v, x, n) } || { memcpy(x, v, n) } || { memset(v, x, n) } || { strlen(v) }
               ==> v.stop, { err("%s is handed on after it was freed", mc_identifier(v)); }
         | { kfree(v) } || { kvfree(v) } || { vfree(v) } || { kfree_sensitive(v) } || { kmem_cache_free(x, v) }
               ==> v.stop, { err("%s is freed twice", mc_identifier(v)); };
}
